//! The example of the README: a tree is made, changed and drawn from.
use slot_draw::{Error, Tree};

fn main() -> Result<(), Error> {
    let mut store = [0; 8];
    let mut tree = Tree::new(&mut store, &[72, 18, 128])?;
    tree.push(32)?;
    let words = [0x9e37_79b9_7f4a_7c15, 3];
    let drawn = tree.draw(&words)?;
    println!("slot {}, words used: {}", drawn.index, drawn.words);
    println!("slot 9 is refused: {}", tree.get(9).unwrap_err());
    Ok(())
}
