//! Lists the boot order of an image file and enables a slot of it in memory: example IMAGE SLOT.

use delunkpawi::{Job, Refused, Setting, JOB_SIZE};
use std::error::Error;

const SETTING: Setting = Setting { granule: 4096, spt0: 0x4000, spt1: 0x5000 };

fn print_order(image: &[u8]) -> Result<(), Refused> {
    let order = SETTING.order(image)?;
    println!("boot order of {}", order.len());
    for slot in order {
        let name = SETTING.slot_name(image, slot)?;
        let facts = SETTING.slot_facts(image, slot)?;
        println!(
            "slot {slot} {} start {} length {}",
            String::from_utf8_lossy(&name),
            facts.start,
            facts.size
        );
    }
    Ok(())
}

/// Runs a job to its end, a few steps at a time.
fn run_job(job: &mut Job, image: &mut [u8]) -> Result<(), Refused> {
    let mut remaining = job.remaining()?;
    println!("job of {remaining} steps");
    while remaining > 0 {
        let done = job.run(image, 5)?;
        remaining -= done;
        println!("did {done}, {remaining} remain");
    }
    Ok(())
}

/// A finished job and bytes of another length are refused, each with its number.
fn print_refusals(job: &mut Job, image: &mut [u8]) {
    if let Err(refused) = job.run(image, 5) {
        println!("finished: {refused}");
    }
    if let Err(refused) = Job::from_bytes(&job.bytes()[..JOB_SIZE - 1]) {
        println!("short buffer: {refused}");
    }
}

fn main() -> Result<(), Box<dyn Error>> {
    let words: Vec<String> = std::env::args().collect();
    let [_, path, slot] = words.as_slice() else {
        return Err("usage: example IMAGE SLOT".into());
    };
    let mut image = std::fs::read(path)?;
    let slot: u32 = slot.parse()?;
    print_order(&image)?;
    println!("enable {slot}");
    let mut job = SETTING.enable(&image, slot)?;
    run_job(&mut job, &mut image)?;
    print_order(&image)?;
    print_refusals(&mut job, &mut image);
    Ok(())
}
