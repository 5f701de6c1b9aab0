pub struct BigEndian;
pub struct LittleEndian;
pub trait ByteOrder {
    fn read_u16(b: &[u8]) -> u16; fn read_u32(b: &[u8]) -> u32; fn read_u64(b: &[u8]) -> u64;
    fn write_u16(b: &mut [u8], x: u16); fn write_u32(b: &mut [u8], x: u32); fn write_u64(b: &mut [u8], x: u64);
}
macro_rules! order { ($t:ty, $from:ident, $to:ident) => { impl ByteOrder for $t {
    fn read_u16(b: &[u8]) -> u16 { u16::$from(b[..2].try_into().unwrap()) }
    fn read_u32(b: &[u8]) -> u32 { u32::$from(b[..4].try_into().unwrap()) }
    fn read_u64(b: &[u8]) -> u64 { u64::$from(b[..8].try_into().unwrap()) }
    fn write_u16(b: &mut [u8], x: u16) { b[..2].copy_from_slice(&x.$to()) }
    fn write_u32(b: &mut [u8], x: u32) { b[..4].copy_from_slice(&x.$to()) }
    fn write_u64(b: &mut [u8], x: u64) { b[..8].copy_from_slice(&x.$to()) }
} }; }
order!(BigEndian, from_be_bytes, to_be_bytes);
order!(LittleEndian, from_le_bytes, to_le_bytes);
