//! gcf_check_image.

use super::IMAGE;
use crate::lent::{Given, Memory};
use crate::made::captures::{
    example, full_sheets, good_import, import_faults, random_capture, short_captures, spoilt,
};
use crate::made::damage::each_flip;
use crate::made::faults::{each_faulty_response, each_pair};
use crate::made::responses::{each_short, long_responses, random_response, sent};
use crate::random::Random;
use crate::run::{told, Cases, Input, Kind, Run, Told};
use gcf::raw;

pub const KIND: Kind =
    Kind { name: "gcf_check_image", answers: || IMAGE.to_vec(), cases: Cases::Of(fixed, random) };

/// Compares one check, and sees that the proved import refuses alike, with room enough.
fn compare(run: &mut Run, image: &[u8]) -> Told {
    let image = Given::new(image);
    let told = run.compare_told(
        &[Input::Bytes("image", &image)],
        Memory::none(),
        |memory| memory.told.by(|check| raw::check_image(image.proved(), check)),
        |memory| {
            let told = told(&second::rom::check(image.plain()));
            memory.told.give(&[told.1 as u64]);
            told
        },
    );
    let (mut sheet, mut made) = (vec![0; 2 * image.proved().len().min(65_535) + 8], raw::Made::default());
    let number = raw::import(image.proved(), &mut sheet, &mut made);
    let holds = (number, made.place as usize) == told;
    run.holds(holds, "import refuses otherwise", &[Input::Bytes("image", &image)]);
    told
}

fn fixed(run: &mut Run) {
    let good = good_import();
    let told = compare(run, &good.capture);
    run.expect_told(told, (0, 0));
    let mut faults = import_faults();
    faults.retain(|fault| fault.told.0 != 42);
    each_pair(&good, &faults, &mut |import, wanted| {
        let told = compare(run, &import.capture);
        run.expect_told(told, wanted);
    });
    let mut see = |image: &[u8]| {
        compare(run, image);
    };
    each_faulty_response(&mut see);
    each_short(&mut see);
    long_responses().iter().for_each(|image| see(image));
    full_sheets().iter().for_each(|sheet| see(&sent(sheet, 0, 0, 65_535)));
    for image in short_captures() {
        for cut in 0..=image.len() {
            see(&image[..cut]);
        }
        each_flip(&mut image.clone(), 1, |image| see(image));
    }
    each_two_bits(&mut see);
}

/// E's image with each two bits flipped.
fn each_two_bits(see: &mut dyn FnMut(&[u8])) {
    let mut bytes = example();
    for one in 0..8 * bytes.len() {
        bytes[one / 8] ^= 1 << (one % 8);
        for two in 0..one {
            bytes[two / 8] ^= 1 << (two % 8);
            see(&bytes);
            bytes[two / 8] ^= 1 << (two % 8);
        }
        bytes[one / 8] ^= 1 << (one % 8);
    }
}

fn random(run: &mut Run, random: &mut Random) {
    let most = if random.once_in(100) { 16_380 } else { random.one_of(&[0, 3, 12, 12, 40, 300]) };
    let image = random_capture(random, most);
    let told = compare(run, &image);
    run.expect_told(told, (0, 0));
    for _ in 0..6 {
        compare(run, &spoilt(random, &image));
    }
    compare(run, &random_response(random, 0).bytes);
}
