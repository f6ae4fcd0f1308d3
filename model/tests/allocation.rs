//! The fill against a grain-by-grain one.

mod common;

use model::allocation::{allocate, ceilings, modified_price, plant_energy};
use model::random::Random;

/// Places one grain after the other on the unit whose next grain is cheapest,
/// the lower unit first at equal price.
#[test]
fn grain_by_grain() {
    let mut random = Random::new(5);
    for case in 0..400 {
        let mut sheet = common::sheet(&["1:1", "1:1", "1:1"]);
        sheet.loss = 2_000;
        let mut commitments = [0; 8];
        for u in 0..3 {
            let offer = &mut sheet.units[u].offers[0];
            offer.count = random.range(1, 3) as usize;
            let mut quantity = 0;
            let mut price = 0;
            for step in &mut offer.list[..offer.count] {
                quantity += random.range(1, 2);
                price += random.below(3);
                (step.quantity, step.price) = (quantity, price);
            }
            commitments[u] = random.range(0, quantity);
            sheet.units[u].nominal = random.range(1, 5);
        }
        let mut record = common::blank_record(&sheet, 1);
        record.net = random.range(0, 9);
        record.reverse = random.below(2);
        for u in 0..3 {
            record.units[u].real = if case % 5 == 0 { 0 } else { random.range(0, 4) };
        }
        let ceilings = ceilings(&sheet, &record);
        let mut energies = [0; 8];
        let mut costs = [0; 8];
        for _ in 0..plant_energy(&sheet, &record) {
            let next =
                |u: usize| modified_price(&sheet.units[u].offers[0], commitments[u], energies[u]);
            let u = (0..3)
                .filter(|&u| energies[u] < ceilings[u])
                .min_by_key(|&u| (next(u), u))
                .unwrap();
            costs[u] += next(u);
            energies[u] += 1;
        }
        let split = allocate(&sheet, &record, &commitments);
        assert_eq!(split.energies, energies, "{case}");
        assert_eq!(split.costs, costs, "{case}");
    }
}
