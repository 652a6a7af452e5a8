//! Commands to an image, for the two functions that answer one, and the same commands to image and imported sheet.

use super::columns;
use super::commands::{
    command, commands_that_are_none, each_allocation, each_room, each_two_faults, made_up_commands, Compare,
};
use crate::lent::Given;
use crate::made::captures::{
    example, full_sheets, good_import, import_faults, random_capture, short_captures, spoil, starts_of,
};
use crate::made::damage::damage;
use crate::made::responses::{sent, MOST};
use crate::random::Random;
use crate::run::{Input, Run};
use gcf::raw;
use second::sheet::Layout;

/// The length of the response with the longest allocation length, by the plain side, for any bytes.
fn length_to_send(image: &[u8], rt: u8, sfn: u16) -> usize {
    second::rom::respond_checked(image, &command(rt, sfn, 65_535), &mut vec![0; MOST]).unwrap_or(0)
}

/// Every command, with all that is the same in every run.
pub fn fixed(run: &mut Run, compare: Compare) {
    each_allocation(run, compare, short_captures(), |image| starts_of(image, 4), length_to_send);
    // An image needs no room for a sheet, so that there is no 42.
    let mut faults = import_faults();
    faults.retain(|fault| fault.told.0 != 42);
    each_two_faults(run, compare, good_import(), |import| &import.capture, faults, 40);
    commands_that_are_none(run, compare, &Given::new(&example()));
    the_longest(run, compare);
    each_spoilt(run, compare);
    short_ones(run, compare);
}

/// Images of 65,532 bytes, and longer ones that are none, asked from both ends with short and long allocation lengths.
fn the_longest(run: &mut Run, compare: Compare) {
    for sheet in full_sheets() {
        let mut image = sent(&sheet, 0, 0, 65_535);
        for more in [0, 2, 1, 1_000] {
            image.resize(image.len() + more, 0);
            let given = Given::new(&image);
            for sfn in [0, 1, 0x0080, 0x00FF, 0x0100, 0x2000, 0x3FFC, 0xFFFE, 0xFFFF] {
                for rt in 0..3 {
                    for allocation in [300, 65_531, 65_532, 65_535] {
                        compare(run, &given, &command(rt, sfn, allocation), MOST + 6);
                    }
                }
            }
        }
    }
}

/// Images cut at each byte, and with each bit flipped, each asked three commands.
fn each_spoilt(run: &mut Run, compare: Compare) {
    for image in short_captures() {
        let (starts, mut turn) = (starts_of(&image, 4), 0);
        let mut see = |bytes: &[u8]| {
            let given = Given::new(bytes);
            for rt in 0..3 {
                turn += 1;
                let sfn = starts[turn % starts.len()];
                let allocation = if turn % 5 == 0 { turn % 64 } else { 4_000 };
                compare(run, &given, &command(rt, sfn, allocation as u16), 4_000);
            }
        };
        for cut in 0..image.len() {
            see(&image[..cut]);
        }
        let mut bytes = image.clone();
        for bit in 0..8 * bytes.len().min(200) {
            bytes[bit / 8] ^= 1 << (bit % 8);
            see(&bytes);
            bytes[bit / 8] ^= 1 << (bit % 8);
        }
    }
}

/// Images of 0 to 24 bytes of one value, and of Data Lengths that are less than what is passed over.
fn short_ones(run: &mut Run, compare: Compare) {
    for length in 0..=24 {
        for value in [0, 1, 4, 8, 0xFF] {
            for stated in [0, 3, 9, 255] {
                let mut image = vec![value; length];
                if length > 4 {
                    image[..4].copy_from_slice(&[0, 0, 0, stated]);
                }
                let given = Given::new(&image);
                for rt in 0..3 {
                    for sfn in [0, 1, 0x0101, 0x0404, 0x0405, 0xFF00, 0xFFFF] {
                        let command = command(rt, sfn, 100);
                        each_room(run, compare, &given, &command, length_to_send(&image, rt, sfn));
                    }
                }
            }
        }
    }
}

/// A made-up image, damaged or not, or any bytes, and made-up commands to it.
pub fn random(run: &mut Run, random: &mut Random, compare: Compare) {
    let most = if random.once_in(150) { 16_380 } else { random.one_of(&[0, 3, 12, 12, 12, 40, 300]) };
    let mut image = random_capture(random, most);
    let starts = starts_of(&image, 20);
    match random.below(6) {
        0 => damage(random, &mut image),
        1 => spoil(random, &mut image),
        2 if random.once_in(2) => image = any_bytes(random),
        _ => {}
    }
    let given = Given::new(&image);
    made_up_commands(run, random, compare, &given, &starts, |rt, sfn| length_to_send(&image, rt % 3, sfn));
    let mut sheet = vec![0; 2 * image.len() + 8];
    if let Ok(length) = second::import::import(&image, &mut sheet) {
        side_by_side(run, &image, &sheet[..length]);
    }
}

/// Bytes that are no image, most of them small, so that descriptors are short.
fn any_bytes(random: &mut Random) -> Vec<u8> {
    let length = if random.once_in(50) { random.below(70_000) } else { random.below(120) };
    (0..length).map(|_| if random.once_in(3) { random.byte() } else { random.below(9) as u8 }).collect()
}

/// The proved box of an imported sheet and the proved box that holds the image: each RT, with a start and an allocation length
/// that change from case to case, and a response buffer that is long enough or not.
pub fn side_by_side(run: &mut Run, image: &[u8], sheet: &[u8]) {
    let starts = starts_of(image, 6);
    for rt in 0..3 {
        let turn = run.cases as usize + usize::from(rt);
        let sfn = starts[turn % starts.len()];
        for allocation in [65_535, turn * 7 % (image.len() + 3)] {
            let command = command(rt, sfn, allocation as u16);
            let room = if turn % 9 == 0 { turn % 50 } else { image.len() + 2 };
            let (mut one, mut two) = (vec![0xA5; room], vec![0xA5; room]);
            let (mut of_sheet, mut of_image) = (raw::Made::default(), raw::Made::default());
            let number = raw::respond(columns(Layout::Rows), sheet, &command, &mut one, &mut of_sheet);
            let other = raw::respond_image(image, &command, &mut two, &mut of_image);
            let mut holds = number == other && of_sheet == of_image && one == two;
            two.fill(0xA5);
            let other = raw::respond_image_accepted(image, &command, &mut two, &mut of_image);
            holds &= number == other && of_sheet.bytes == of_image.bytes && one == two;
            let (given, asked) = (Given::new(image), Given::new(&command));
            let inputs = [
                Input::Bytes("image", &given),
                Input::Bytes("command", &asked),
                Input::Number("room", room as u64),
            ];
            run.holds(holds, "image and sheet answer differently", &inputs);
        }
    }
}
