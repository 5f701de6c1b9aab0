pub struct Buffer { text: String }
pub trait Integer: Copy { fn text(self) -> String; }
macro_rules! integers { ($($t:ty)*) => { $(impl Integer for $t { fn text(self) -> String { self.to_string() } })* }; }
integers!(u8 u16 u32 u64 u128 usize i8 i16 i32 i64 i128 isize);
impl Buffer {
    pub fn new() -> Buffer { Buffer { text: String::new() } }
    pub fn format<I: Integer>(&mut self, n: I) -> &str { self.text = n.text(); &self.text }
}
