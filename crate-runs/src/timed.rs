//! C names for the benchmark: the crate's calls on a lent image, without a record of the steps.

use std::slice;
use std::time::Instant;

use esp_nvs::platform::software_crc32;
use esp_nvs::Nvs;
use model::sector::SECTOR_BYTES;

use crate::flash::{Counter, Flash};

fn counted(image: &mut [u8], work: impl FnOnce(&mut Nvs<Flash<&mut Counter>>)) -> u64 {
    let mut counter = Counter { steps: 0 };
    let sectors = (image.len() / SECTOR_BYTES) as u16;
    work(&mut Nvs::unread(Flash { image, meter: &mut counter }, sectors, false));
    counter.steps
}

/// The crate's scan and defragment. The answer: the steps made.
///
/// # Safety
/// `image` points to `length` bytes that nothing else uses during the call.
#[no_mangle]
pub unsafe extern "C" fn crate_reclaim(image: *mut u8, length: usize) -> u64 {
    counted(slice::from_raw_parts_mut(image, length), |nvs| {
        nvs.run_scan().and_then(|()| nvs.run_reclaim()).expect("an image that reclaim does not refuse")
    })
}

/// The crate's defragment alone, as an instance runs it that keeps what its scan found. The answer: nanoseconds.
///
/// # Safety
/// As `crate_reclaim`.
#[no_mangle]
pub unsafe extern "C" fn crate_defragment_time(image: *mut u8, length: usize) -> u64 {
    let mut time = 0;
    counted(slice::from_raw_parts_mut(image, length), |nvs| {
        nvs.run_scan().expect("flash that does not fail");
        let begun = Instant::now();
        nvs.run_reclaim().expect("an image that reclaim does not refuse");
        time = begun.elapsed().as_nanos() as u64;
    });
    time
}

/// The crate's load of all sectors: its recovery. The answer: the steps made.
///
/// # Safety
/// As `crate_reclaim`.
#[no_mangle]
pub unsafe extern "C" fn crate_recover(image: *mut u8, length: usize) -> u64 {
    counted(slice::from_raw_parts_mut(image, length), |nvs| {
        nvs.run_recovery().expect("flash that does not fail")
    })
}

/// The CRC that the crate runs with here: its own, as given.
///
/// # Safety
/// `bytes` points to `length` bytes.
#[no_mangle]
pub unsafe extern "C" fn crate_crc(bytes: *const u8, length: usize) -> u32 {
    software_crc32(u32::MAX, slice::from_raw_parts(bytes, length))
}
