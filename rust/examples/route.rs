//! Routes a net with a macro in its way, prints its wires, and stores it as a net file and reads it back.
//!
//!     cargo run --release --offline --example route

use calzundi::{Net, Refusal};

fn main() -> Result<(), Refusal> {
    let net = Net::new([(0, 0), (10, 0), (12, 6)], [(4, -2, 6, 3)]);
    let tree = net.refined_tree()?;
    println!("{} edges, metal to lay {}", tree.edges.len(), tree.metal);
    for wire in net.wires()? {
        let (start, end) = (wire.start, wire.end);
        println!("{} {} to {} {}", start.x, start.y, end.x, end.y);
    }
    let file = net.to_file()?;
    assert_eq!(Net::from_file(&file)?, net);
    println!("{} bytes", file.len());
    Ok(())
}
