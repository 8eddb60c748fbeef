// Enciphers a sector, deciphers it again, and tries a refusal: a caller in Rust. The functions take each slice as a pointer
// and then a length, as crates/capi/include/kizdolur.h says; `transform` makes them safe to call.
//
//   tools/staticlib
//   rustc -O examples/sector.rs -C link-arg=target/staticlib/libcapi.a -o target/sector-rs
type Call = unsafe extern "C" fn(
    u8, u8, *const u8, usize, u64, *const u8, usize, *mut u8, usize, *mut u8, usize,
) -> u8;

extern "C" {
    fn kizdolur_encipher(
        cipher: u8, hash: u8, key: *const u8, key_length: usize, sector: u64, text: *const u8, text_length: usize,
        output: *mut u8, output_length: usize, working: *mut u8, working_length: usize,
    ) -> u8;
    fn kizdolur_decipher(
        cipher: u8, hash: u8, key: *const u8, key_length: usize, sector: u64, text: *const u8, text_length: usize,
        output: *mut u8, output_length: usize, working: *mut u8, working_length: usize,
    ) -> u8;
}

const AES128: u8 = 1;
const BRW: u8 = 2;

fn transform(call: Call, key: &[u8], sector: u64, text: &[u8], output: &mut [u8], working: &mut [u8]) -> u8 {
    // Rust's borrows keep the slices apart, as the functions ask.
    unsafe {
        call(
            AES128, BRW, key.as_ptr(), key.len(), sector, text.as_ptr(), text.len(), output.as_mut_ptr(), output.len(),
            working.as_mut_ptr(), working.len(),
        )
    }
}

fn main() {
    let key: Vec<u8> = (0..16).collect();
    let text: Vec<u8> = (0..64).collect();
    let (mut enciphered, mut again, mut working) = ([0; 64], [0; 64], [0; 48]);
    let answer = transform(kizdolur_encipher, &key, 7, &text, &mut enciphered, &mut working);
    let digits: String = enciphered.iter().map(|b| format!("{b:02X}")).collect();
    println!("encipher {answer} {digits}");
    let answer = transform(kizdolur_decipher, &key, 7, &enciphered, &mut again, &mut working);
    println!("decipher {answer} {}", if again[..] == text[..] { "the same text" } else { "another text" });
    let answer = transform(kizdolur_encipher, &key[..15], 7, &text, &mut enciphered, &mut working);
    println!("a key of 15 bytes {answer}");
}
