//! Any bytes may be handed in: each function gives what its raw one gives, and none panics.

use gcf::*;

/// Numbers that look like chance and are the same in every run.
struct Made(u64);

impl Made {
    fn below(&mut self, limit: usize) -> usize {
        self.0 ^= self.0 << 13;
        self.0 ^= self.0 >> 7;
        self.0 ^= self.0 << 17;
        (self.0 >> 8) as usize % limit
    }

    /// The bytes, cut somewhere or not, with up to three of them changed.
    fn spoilt(&mut self, bytes: &[u8]) -> Vec<u8> {
        let mut spoilt = bytes.to_vec();
        if self.below(3) == 0 {
            spoilt.truncate(self.below(bytes.len() + 1));
        }
        for _ in 0..self.below(4).min(spoilt.len()) {
            let at = self.below(spoilt.len());
            spoilt[at] = [0, 1, 3, 4, 0x12, self.below(256) as u8][self.below(6)];
        }
        spoilt
    }
}

fn number<T>(result: Result<T, Number>) -> u8 {
    result.err().map_or(0, Number::number)
}

fn refused<T>(result: Result<T, Refused>) -> u8 {
    number(result.map_err(|refused| refused.number))
}

/// Sheet E in either layout, and the layout as the raw functions take it.
const SHEETS: [(Layout, bool, &[u8]); 2] =
    [(Layout::Rows, false, &SHEET_E), (Layout::Columns, true, &COLUMNS_E)];

#[test]
fn the_box() {
    let made = &mut Made(1);
    for turn in 0..40_000 {
        let (layout, columns, bytes) = SHEETS[turn % 2];
        let (sheet, command) = (made.spoilt(bytes), made.spoilt(&[0x46, 0, 0, 0, 0, 0, 0, 0, 44, 0]));
        let (room, allocation) = (made.below(60), made.below(50) as u16);
        let (mut lent, mut other, mut starts) = ([0; 60], [0; 60], [0; 9]);
        let checked = Sheet::check(layout, &sheet);
        assert_eq!(refused(checked), raw::check_sheet(columns, &sheet, &mut Default::default()));
        let told = &mut raw::Made::default();
        let number = raw::respond(columns, &sheet, &command, &mut lent[..room], told);
        assert_eq!(refused(respond(layout, &sheet, &command, &mut lent[..room])), number);
        if let Ok(sheet) = checked {
            assert_eq!(sheet.respond(&command, &mut lent[..room]).is_err(), number != 0);
        }
        let swept = &mut Default::default();
        let number = raw::bench(columns, &sheet, 1, allocation, &mut lent, &mut other, &mut starts, swept);
        let swept = bench(layout, &sheet, Rt::Current, allocation, &mut lent, &mut other, &mut starts);
        assert_eq!(refused(swept), number);
        for (to, to_columns, _) in SHEETS {
            let number = raw::convert(columns, &sheet, to_columns, &mut lent[..room], told);
            assert_eq!(refused(convert(layout, &sheet, to, &mut other[..room])), number);
            if let Ok(laid) = convert(layout, &sheet, to, &mut lent) {
                // Laid out as it was it is the same.
                assert_eq!(convert(to, laid.bytes(), layout, &mut other), Ok(checked.unwrap()));
            }
        }
    }
}

#[test]
fn media() {
    let made = &mut Made(6);
    for turn in 0..40_000 {
        let (layout, columns, bytes) = SHEETS[turn % 2];
        let sheet = made.spoilt(bytes);
        let features: Vec<Feature> =
            (0..made.below(4)).map(|_| Feature([1, 3, 0x1F, 0x105, 0x20][made.below(5)])).collect();
        let profiles: Vec<Profile> =
            (0..made.below(3)).map(|_| Profile([0x10, 0x12, 0x13][made.below(3)])).collect();
        let room = made.below(60);
        let (mut lent, mut other) = ([0; 60], [0; 60]);
        let told = &mut Default::default();
        let number = raw::load(columns, &sheet, &features, &profiles, &mut lent[..room], told);
        let loaded = load(layout, &sheet, &features, &profiles, &mut other[..room]);
        assert_eq!(refused(loaded), number);
        // An accepted sheet stays accepted.
        assert!(loaded.map_or(true, |loaded| Sheet::check(layout, loaded.bytes()) == Ok(loaded)));
    }
}

#[test]
fn a_mended_response() {
    let made = &mut Made(7);
    let mut full = [0; 44];
    let sheet = Sheet::check(Layout::Rows, &SHEET_E).unwrap();
    sheet.respond(&[0x46, 0, 0, 0, 0, 0, 0, 0, 44, 0], &mut full).unwrap();
    for _ in 0..20_000 {
        let response = made.spoilt(&full);
        let (room, lines) = (made.below(50), made.below(8));
        let (mut copy, mut other) = ([0xA5; 50], [0xA5; 50]);
        let (mut list, mut second) = ([0; 8], [0; 8]);
        let number_of = raw::mend(&response, &mut copy[..room], &mut list[..lines], &mut Default::default());
        let mended = mend(&response, &mut other[..room], &mut second[..lines]);
        assert_eq!(number(mended), number_of);
        if let Ok(mended) = mended {
            // Undone it is what it was, and mended again nothing changes.
            let (mut back, mut again) = (mended.copy.to_vec(), [0; 50]);
            undo(mended.changes(), &mut back);
            assert_eq!(back, response);
            assert_eq!(mend(mended.copy, &mut again, &mut []), Ok(Mended { copy: mended.copy, lines: &[] }));
        }
        assert!(copy == other && list == second);
    }
}

#[test]
fn the_box_with_an_image() {
    let made = &mut Made(4);
    for _ in 0..20_000 {
        let (image, command) = (made.spoilt(&IMAGE_E), made.spoilt(&[0x46, 0, 0, 0, 0, 0, 0, 0, 44, 0]));
        let room = made.below(60);
        let (mut response, mut other, mut sheet) = ([0; 60], [0; 60], [0; 99]);
        let checked = Image::check(&image);
        assert_eq!(refused(checked), raw::check_image(&image, &mut Default::default()));
        let number = raw::respond_image(&image, &command, &mut response[..room], &mut Default::default());
        let answer = respond_image(&image, &command, &mut other[..room]).map(<[u8]>::to_vec);
        assert_eq!(refused(answer.clone()), number);
        if let Ok(image) = checked {
            assert_eq!(image.respond(&command, &mut response[..room]).ok(), answer.as_deref().ok());
            // What the imported sheet gives.
            let sheet = import(image.bytes(), &mut sheet).map(|sheet| sheet.bytes());
            let answered =
                sheet.and_then(|sheet| respond(Layout::Rows, sheet, &command, &mut response[..room]));
            assert_eq!(answered.map(<[u8]>::to_vec), answer);
        }
    }
}

#[test]
fn the_driver() {
    let made = &mut Made(2);
    for _ in 0..20_000 {
        let response = made.spoilt(&IMAGE_E);
        let (mut text, mut descriptor, mut sheet) = ([0; 99], [0; DESCRIPTOR_MOST], [0; 60]);
        for (rt, code) in [(Rt::All, 0), (Rt::Current, 1), (Rt::One, 2)] {
            let (reading, told) = (read(rt, Feature(0), &response), &mut Default::default());
            assert_eq!(number(reading), raw::read(code, Feature(0), &response, told));
            if let Ok(reading) = reading {
                // The descriptors are as many as the reading says, and their bytes are those of the response.
                let size = |descriptor: Descriptor<'_>| 4 + descriptor.body.len();
                assert_eq!(reading.descriptors().count(), reading.count);
                assert_eq!(reading.descriptors().map(size).sum::<usize>(), reading.bytes().len());
                assert!(reading.descriptors().eq(descriptors(reading.bytes())));
            }
        }
        let room = made.below(100);
        list(&response, &mut text[..room]);
        held(Feature(made.below(6) as u16), &response, &IMAGE_E, &mut descriptor);
        let found = match check_descriptors(&response) {
            Finding::Faultless => 0,
            Finding::Fault(number, _) | Finding::Refused(number) => number.number(),
        };
        assert_eq!(found, raw::check_descriptors(&response, &mut Default::default()));
        let judged = match check_profile(Profile(0x0012), &response) {
            Judgement::Conforms | Judgement::Broken(..) => 0,
            Judgement::Refused(number) => number.number(),
        };
        assert_eq!(judged, raw::check_profile(Profile(0x0012), &response, &mut Default::default()));
        let number = raw::import(&response, &mut [0; 60], &mut Default::default());
        assert_eq!(refused(import(&response, &mut sheet)), number);
        read_sense(&response[..response.len().min(18)]).ok();
    }
}

#[test]
fn sweeps() {
    let made = &mut Made(3);
    for _ in 0..20_000 {
        let mut collecting = [0; 60];
        let room = made.below(61);
        let mut sweep = match Sweep::start(Rt::All, 20) {
            Ok(sweep) => sweep,
            Err(number) => panic!("refused {number}"),
        };
        for _ in 0..9 {
            let mut response = [0; 20];
            let sent =
                respond(Layout::Rows, &SHEET_E, &sweep.command(), &mut response).map_or(0, <[u8]>::len);
            let _ = sweep.take(&made.spoilt(&response[..sent]), &mut collecting[..room]);
            assert!(sweep.collected() <= room);
        }
    }
}
