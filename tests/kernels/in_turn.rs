//! Lists of two items in turn.
/// The greatest length that is tested. Each from 0 to it is.
pub const MOST: usize = 65;

/// The first item, the second, the first again, and so on.
pub fn in_turn<T: Copy>(items: [T; 2]) -> [T; MOST] {
    let mut list = [items[0]; MOST];
    for i in 0..MOST {
        list[i] = items[i % 2];
    }
    list
}
