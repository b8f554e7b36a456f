// Unpacks an example of docs/RULES.md, octets 0C 44, three values of 5 bits, by way of the library: 1, 17, 2.
#[link(name = "skogmund", kind = "static")]
extern "C" {
    fn skogmund_unpack(five: *const u8, n5: usize, seven: *const u8, n7: usize, row: *mut u32, places: usize) -> u64;
}

fn main() {
    let five = [0, 0, 0, 21, 5, 0, 0, 0, 3, 0, 0, 0, 0, 0, 0, 0, 0, 0, 0, 5, 0u8];
    let seven = [0, 0, 0, 7, 7, 0x0c, 0x44u8];
    let mut row = [0u32; 3];
    let refusal = unsafe { skogmund_unpack(five.as_ptr(), five.len(), seven.as_ptr(), seven.len(), row.as_mut_ptr(), row.len()) };
    println!("{refusal} {row:?}");
}
