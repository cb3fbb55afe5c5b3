// Logs a user in, as login.c does: reads the client's two messages, a line each, and writes the server's two.
//
// Usage: login MECHANISM SALT NONCE [ACT_AS ..]
// Built by: rustc -O -L clib/out clib/examples/login.rs -o login
use std::ffi::CStr;
use std::io::{self, BufRead};
use std::os::raw::c_char;
use std::process::exit;

#[repr(C)]
struct Entry {
    mechanism: u32,
    count: u32,
    salt_len: usize,
    key_len: usize,
    salt: [u8; 64],
    stored_key: [u8; 64],
    server_key: [u8; 64],
}

#[repr(C)]
struct Bytes {
    at: *const u8,
    len: usize,
}

#[repr(C)]
struct Names {
    name: [c_char; 256],
    act_as: [c_char; 256],
}

#[link(name = "scramotp", kind = "static")]
extern "C" {
    fn scramotp_keys(
        mechanism: u32, count: u32, salt: *const u8, salt_len: usize, password: *const u8, password_len: usize, entry: &mut Entry,
    ) -> u32;
    fn scramotp_decoy(key: &[u8; 32], mechanism: u32, count: u32, name: *const u8, name_len: usize, entry: &mut Entry) -> u32;
    fn scramotp_read_names(first: *const u8, first_len: usize, names: &mut Names) -> u32;
    fn scramotp_server_first(
        entry: &Entry, first: *const u8, first_len: usize, nonce: *const u8, nonce_len: usize, out: *mut u8, room: usize, len: &mut usize,
    ) -> u32;
    fn scramotp_server_final(
        entry: &Entry, act_as: *const Bytes, act_as_len: usize, first: *const u8, first_len: usize, challenge: *const u8,
        challenge_len: usize, last: *const u8, last_len: usize, out: *mut u8, room: usize, len: &mut usize,
    ) -> u32;
}

// 32 random bytes of the server, which are the same in each login.
const DECOY_KEY: [u8; 32] = *b"\x01\x02\x03\0\0\0\0\0\0\0\0\0\0\0\0\0\0\0\0\0\0\0\0\0\0\0\0\0\0\0\0\0";

fn line() -> String {
    let mut text = String::new();
    io::stdin().lock().read_line(&mut text).expect("a line");
    text.trim_end_matches('\n').to_string()
}

fn bytes_of(hex: &str) -> Vec<u8> {
    (0..hex.len() / 2).map(|i| u8::from_str_radix(&hex[2 * i..2 * i + 2], 16).expect("hexadecimal")).collect()
}

fn text_of(name: &[c_char; 256]) -> String {
    // The library puts a NUL after each name.
    unsafe { CStr::from_ptr(name.as_ptr()) }.to_str().expect("ASCII").to_string()
}

// Ends the program unless a call has done what it says.
fn done(number: u32) {
    if number != 0 {
        eprintln!("refused: {number}");
        exit(1);
    }
}

fn main() {
    let words: Vec<String> = std::env::args().collect();
    let mechanism = if words[1] == "SCRAM-SHA-1" { 1 } else { 256 };
    let (salt, nonce) = (bytes_of(&words[2]), &words[3]);
    let act_as: Vec<Bytes> = words[4..].iter().map(|name| Bytes { at: name.as_ptr(), len: name.len() }).collect();

    let first = line();
    let mut names = Names { name: [0; 256], act_as: [0; 256] };
    done(unsafe { scramotp_read_names(first.as_ptr(), first.len(), &mut names) });
    let (name, other) = (text_of(&names.name), text_of(&names.act_as));
    let zeros = [0; 64];
    let mut entry = Entry { mechanism: 0, count: 0, salt_len: 0, key_len: 0, salt: zeros, stored_key: zeros, server_key: zeros };
    done(if name == "user" {
        unsafe { scramotp_keys(mechanism, 4096, salt.as_ptr(), salt.len(), b"pencil".as_ptr(), 6, &mut entry) }
    } else {
        unsafe { scramotp_decoy(&DECOY_KEY, mechanism, 4096, name.as_ptr(), name.len(), &mut entry) }
    });
    let (mut out, mut len) = ([0u8; 618], 0);
    done(unsafe {
        scramotp_server_first(&entry, first.as_ptr(), first.len(), nonce.as_ptr(), nonce.len(), out.as_mut_ptr(), out.len(), &mut len)
    });
    let challenge = String::from_utf8_lossy(&out[..len]).to_string();
    println!("{challenge}");

    let last = line();
    let number = unsafe {
        scramotp_server_final(
            &entry, act_as.as_ptr(), act_as.len(), first.as_ptr(), first.len(), challenge.as_ptr(), challenge.len(), last.as_ptr(),
            last.len(), out.as_mut_ptr(), out.len(), &mut len,
        )
    };
    if number == 0 || (32..=37).contains(&number) {
        println!("{}", String::from_utf8_lossy(&out[..len]));
    }
    done(number);
    eprintln!("{name} is logged in as {}", if other.is_empty() { &name } else { &other });
}
