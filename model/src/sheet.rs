//! The day sheet: its values, its text, its ranges.

use crate::text::{number, Lines};
use crate::{Refusal, HOURS, UNITS};

/// The most pairs of an offer.
pub const STEPS: usize = 10;

/// The largest quantity of energy of one unit, in kWh.
pub const MOST_KWH: u64 = 1_000_000;

/// The largest price, in Rial a MWh.
pub const MOST_PRICE: u64 = 10_000_000;

/// One pair of an offer: up to `quantity` hub kWh, counted from the first one
/// of the unit, the price is `price` Rial a MWh.
#[derive(Clone, Copy, Debug, Default, PartialEq, Eq)]
pub struct Step {
    pub quantity: u64,
    pub price: u64,
}

/// An offer for one hour.
#[derive(Clone, Copy, Debug, Default, PartialEq, Eq)]
pub struct Offer {
    pub count: usize,
    pub list: [Step; STEPS],
}

impl Offer {
    pub fn steps(&self) -> &[Step] {
        &self.list[..self.count]
    }

    /// The last quantity, above which no commitment goes.
    pub fn last(&self) -> u64 {
        self.list[self.count - 1].quantity
    }

    /// Reads a value; the refusal is 2 or 3, and 2 comes first.
    pub fn read(value: &[u8]) -> Result<Offer, u8> {
        let mut offer = Offer::default();
        for pair in value.split(|&byte| byte == b',') {
            if offer.count == STEPS {
                return Err(2);
            }
            let colon = pair.iter().position(|&byte| byte == b':').ok_or(2)?;
            offer.list[offer.count] = Step {
                quantity: number(&pair[..colon], 1, MOST_KWH).ok_or(2)?,
                price: number(&pair[colon + 1..], 0, MOST_PRICE).ok_or(2)?,
            };
            offer.count += 1;
        }
        if offer.in_order() {
            Ok(offer)
        } else {
            Err(3)
        }
    }

    /// Quantities strictly rise, prices never fall.
    pub fn in_order(&self) -> bool {
        self.steps()
            .windows(2)
            .all(|two| two[0].quantity < two[1].quantity && two[0].price <= two[1].price)
    }

    /// Number of pairs, ranges and order, for an offer of any values.
    pub fn is_allowed(&self) -> bool {
        (1..=STEPS).contains(&self.count)
            && self
                .steps()
                .iter()
                .all(|step| (1..=MOST_KWH).contains(&step.quantity) && step.price <= MOST_PRICE)
            && self.in_order()
    }
}

/// What the sheet says of one unit.
#[derive(Clone, Copy, Debug, Default, PartialEq, Eq)]
pub struct UnitSheet {
    /// Own use in ten-thousandths.
    pub own: u64,
    pub nominal: u64,
    /// Gross kWh.
    pub monthly: u64,
    pub offers: [Offer; HOURS],
}

impl UnitSheet {
    /// Net kWh of gross kWh.
    pub fn net(&self, gross: u64) -> u64 {
        gross * (10_000 - self.own) / 10_000
    }
}

/// A day sheet.
#[derive(Clone, Debug, PartialEq, Eq)]
pub struct Sheet {
    pub month: u64,
    pub day: u64,
    /// Plant loss in ten-thousandths.
    pub loss: u64,
    /// Rial a MWh.
    pub ceiling: u64,
    /// Rial a MW.
    pub bar: u64,
    /// In thousandths.
    pub cpf: [u64; HOURS],
    /// Bit n − 1 stands for unit n.
    pub mask: u64,
    /// By unit number less 1; those outside the plant have no meaning.
    pub units: Vec<UnitSheet>,
}

impl Sheet {
    /// Whether a unit number is one of the plant's.
    pub fn has(&self, unit: u64) -> bool {
        (1..=UNITS as u64).contains(&unit) && self.mask >> (unit - 1) & 1 == 1
    }

    /// Indices (number less 1) of the plant's units, ascending.
    pub fn plant(&self) -> impl Iterator<Item = usize> + '_ {
        (0..UNITS).filter(|&u| self.mask >> u & 1 == 1)
    }

    /// The number of units of the plant.
    pub fn size(&self) -> usize {
        self.mask.count_ones() as usize
    }

    /// Grains at the hub of one kWh at the gate.
    pub fn hub_of_one(&self) -> u64 {
        10_000 - self.loss
    }

    /// Gate kWh of a commitment of hub kWh.
    pub fn gate_of_commitment(&self, kwh: u64) -> u64 {
        (kwh * 10_000).div_ceil(self.hub_of_one())
    }

    /// From day 15 of month 3 to day 15 of month 6.
    pub fn in_season(&self) -> bool {
        (3, 15) <= (self.month, self.day) && (self.month, self.day) <= (6, 15)
    }

    /// Whether the values keep the sheet's ranges and orders; where they do
    /// not, every call gets refusal 9. Of units, only the plant's count.
    pub fn is_allowed(&self) -> bool {
        (1..=12).contains(&self.month)
            && (1..=days_in(self.month)).contains(&self.day)
            && self.loss <= 2_000
            && self.ceiling <= MOST_PRICE
            && self.bar <= 1_000_000
            && self.cpf.iter().all(|&cpf| cpf <= 10_000)
            && (1..=255).contains(&self.mask)
            && self.units.len() == UNITS
            && self.plant().all(|u| {
                let unit = &self.units[u];
                unit.own <= 2_000
                    && (1..=MOST_KWH).contains(&unit.nominal)
                    && unit.monthly <= MOST_KWH
                    && unit.offers.iter().all(Offer::is_allowed)
            })
    }

    /// Reads a sheet from the text's first byte; gives the place after it.
    pub fn read(text: &[u8]) -> Result<(Sheet, usize), Refusal> {
        let mut lines = Lines::new(text, 0)?;
        let month = lines.number("month", 1, 12)?;
        let day = lines.number("day", 1, days_in(month))?;
        let loss = lines.number("loss", 0, 2_000)?;
        let ceiling = lines.number("ceiling", 0, MOST_PRICE)?;
        let bar = lines.number("bar", 0, 1_000_000)?;
        let mut cpf = [0; HOURS];
        for hour in &mut cpf {
            *hour = lines.number("cpf", 0, 10_000)?;
        }
        let mask = lines.number("units", 1, 255)?;
        let mut units = vec![UnitSheet::default(); UNITS];
        for u in (0..UNITS).filter(|u| mask >> u & 1 == 1) {
            let unit = &mut units[u];
            unit.own = lines.number("own", 0, 2_000)?;
            unit.nominal = lines.number("nominal", 1, MOST_KWH)?;
            unit.monthly = lines.number("monthly", 0, MOST_KWH)?;
            for offer in &mut unit.offers {
                let value = lines.value("offer")?;
                *offer = Offer::read(value).map_err(|number| lines.refusal(number))?;
            }
        }
        lines.end("sheet")?;
        let sheet = Sheet {
            month,
            day,
            loss,
            ceiling,
            bar,
            cpf,
            mask,
            units,
        };
        Ok((sheet, lines.place()))
    }
}

/// Days of a month of the Persian calendar, as the sheet admits them.
pub fn days_in(month: u64) -> u64 {
    if month <= 6 {
        31
    } else {
        30
    }
}
