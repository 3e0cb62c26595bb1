//! Covers corner records, lays them as a layer over one zone, and prints where they meet.
//!
//!     cargo run --example survey

use overlay::{cover_records, Cause, Layer, Plan, Rect, Strip};

fn main() -> Result<(), Cause> {
    let records = [
        [1000.2, 500.0, 1250.7, 750.4],
        [19999.9, -0.3, 20400.0, 80.0],
        [20000.25, 100.0, 20300.0, 300.0],
        [-250.5, 10.0, 0.0, 20.0],
    ];
    let covers = cover_records(Strip::Between(0.0, 20000.0), Strip::Free, &records)?;
    let zone = Layer::new([Rect::new(-300, 0, 1200, 600)]).with_margin(50);
    let plan = Plan::new(&[Layer::new(covers), zone])?;
    for places in &plan.run(100)?.rows {
        let common = plan.common(places).expect("a row of the table");
        println!("cover {}: {:?} {}", places[0], common.rect.cells(), common.kind.letter());
    }
    Ok(())
}
