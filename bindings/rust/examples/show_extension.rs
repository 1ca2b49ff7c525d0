//! Says what a TACK extension holds: `show_extension FILE`, where the file has the extension's bytes.

use std::process::ExitCode;
use tack::extension::{self, Extension};

fn hex(bytes: &[u8]) -> String {
    bytes.iter().map(|byte| format!("{byte:02x}")).collect()
}

fn show(extension: &Extension) {
    match extension.tack() {
        None => println!("tack             absent"),
        Some(tack) => {
            println!("tack");
            println!("  public key     {}", hex(tack.public_key()));
            println!(
                "  generation     {}, at least {}",
                tack.generation(),
                tack.min_generation()
            );
            println!("  expiration     minute {} since 1970", tack.expiration());
            println!("  target hash    {}", hex(tack.target_hash()));
            println!("  signature      {}", hex(tack.signature()));
        }
    }
    println!("break signatures {}", extension.break_signatures().count());
    for (index, signature) in extension.break_signatures().enumerate() {
        println!("  {index} of key       {}", hex(signature.public_key()));
    }
    let activation = if extension.activation_enabled() {
        "enabled"
    } else {
        "disabled"
    };
    println!("activation       {activation}");
}

fn main() -> ExitCode {
    let Some(path) = std::env::args_os().nth(1) else {
        eprintln!("show_extension FILE");
        return ExitCode::from(2);
    };
    let bytes = match std::fs::read(&path) {
        Ok(bytes) => bytes,
        Err(error) => {
            eprintln!("{}: {error}", path.to_string_lossy());
            return ExitCode::FAILURE;
        }
    };
    println!("{} bytes", bytes.len());
    match Extension::read(&bytes) {
        Ok(extension) => {
            show(&extension);
            let mut again = [0u8; extension::MAX_LENGTH];
            let rewritten = extension::write(
                extension.tack_bytes(),
                extension.break_bytes(),
                extension.activation_enabled(),
                &mut again,
            );
            let same = rewritten.is_ok_and(|length| again[..length] == bytes[..]);
            println!(
                "written again    {}",
                if same {
                    "the same bytes"
                } else {
                    "OTHER BYTES"
                }
            );
            ExitCode::SUCCESS
        }
        Err(refused) => {
            println!(
                "{refused}: number {}, alert {}",
                refused.number(),
                refused.alert()
            );
            ExitCode::FAILURE
        }
    }
}
