//! The store beside its model: the README's lines, and texts and replies that `models/store.py`
//! wrote (`lines SEED 120`), cut at every length and answered in small rooms; a thousand texts that
//! `embed/build` leaves beside the archives, cut at every length; each refusal.

use route_arenas::{Error, RouteBook};
use std::{env, fs};

/// The rooms of a store, lines, and their replies by the model.
type Text = ([usize; 3], &'static [u8], &'static [u8]);

const README: Text = (
    [4, 4, 2],
    b"place 50 oak\nstart 1\nextend 2 1\nword 1 elm\nwalk 2\nmark 1 3\nremove 3\nshow 4\n",
    b"1\n2\n3\nold oak\n2 1\n3 1\nend\n4\nok\n1 gone\n",
);

const TEXTS: [Text; 4] = [
    README,
    (
        [12, 9, 0],
        include_bytes!("route_book/5.lines"),
        include_bytes!("route_book/5.replies"),
    ),
    (
        [40, 90, 20],
        include_bytes!("route_book/11.lines"),
        include_bytes!("route_book/11.replies"),
    ),
    (
        [40, 9, 5],
        include_bytes!("route_book/12.lines"),
        include_bytes!("route_book/12.replies"),
    ),
];

fn made([places, stops, marks]: [usize; 3]) -> Result<RouteBook, Error> {
    RouteBook::new(places, stops, marks)
}

/// Gives the input in pieces of this length, and what was not taken once more before the next one.
fn answered_in_pieces(book: &mut RouteBook, input: &[u8], piece: usize) -> Vec<u8> {
    let (mut held, mut replies) = (Vec::new(), Vec::new());
    for part in input.chunks(piece) {
        held.extend_from_slice(part);
        let taken = book.answer(&held, &mut replies);
        held.drain(..taken);
    }
    assert_eq!(held, b"");
    replies
}

#[test]
fn texts_at_once_and_in_pieces_of_each_length() -> Result<(), Error> {
    for (rooms, lines, replies) in TEXTS {
        for piece in 1..=lines.len() {
            let mut book = made(rooms)?;
            assert_eq!(answered_in_pieces(&mut book, lines, piece), replies);
        }
        let [places, stops, marks] = rooms;
        assert_eq!(RouteBook::answer_all(places, stops, marks, lines)?, replies);
    }
    Ok(())
}

#[test]
fn texts_cut_in_two_at_each_byte() -> Result<(), Error> {
    for (rooms, lines, replies) in TEXTS {
        for cut in 0..=lines.len() {
            let mut book = made(rooms)?;
            let mut answers = Vec::new();
            let taken = book.answer(&lines[..cut], &mut answers);
            // The whole lines of the first piece.
            assert_eq!(
                taken,
                lines[..cut]
                    .iter()
                    .rposition(|byte| *byte == b'\n')
                    .map_or(0, |at| at + 1)
            );
            assert_eq!(
                book.answer(&lines[taken..], &mut answers),
                lines.len() - taken
            );
            assert_eq!(answers, replies);
        }
    }
    Ok(())
}

/// Takes the front of some bytes off.
fn split_off<'a>(bytes: &mut &'a [u8], count: usize) -> &'a [u8] {
    let (front, rest) = bytes.split_at(count);
    *bytes = rest;
    front
}

#[test]
fn a_thousand_texts_cut_in_two_at_each_byte() -> Result<(), Error> {
    let folder = env::var("EMBED_ARCHIVES")
        .unwrap_or_else(|_| concat!(env!("CARGO_MANIFEST_DIR"), "/../out").to_owned());
    let file = fs::read(folder + "/texts").expect("the texts that embed/build leaves");
    let mut rest = file.as_slice();
    let mut count = 0;
    while let Some(end) = rest.iter().position(|byte| *byte == b'\n') {
        let head = str::from_utf8(split_off(&mut rest, end + 1)).expect("numbers");
        let numbers: Vec<usize> = head
            .split_whitespace()
            .map(|it| it.parse().unwrap())
            .collect();
        let [places, stops, marks, length, replied] = numbers[..] else {
            panic!("a text has the head {head}");
        };
        let lines = split_off(&mut rest, length);
        let replies = split_off(&mut rest, replied);
        for cut in 0..=length {
            let mut book = made([places, stops, marks])?;
            let mut answers = Vec::new();
            let taken = book.answer(&lines[..cut], &mut answers);
            assert_eq!(book.answer(&lines[taken..], &mut answers), length - taken);
            assert_eq!(answers, replies);
        }
        count += 1;
    }
    assert_eq!(count, 1000);
    Ok(())
}

#[test]
fn texts_in_rooms_of_each_size() -> Result<(), Error> {
    for (rooms, lines, replies) in TEXTS {
        for size in 0..300 {
            let mut book = made(rooms)?;
            let mut room = vec![0; size];
            let (mut begun, mut answers) = (0, Vec::new());
            loop {
                let progress = book.run(&lines[begun..], &mut room);
                answers.extend_from_slice(&room[..progress.written]);
                begun += progress.taken;
                if !progress.is_short {
                    assert_eq!((begun, answers.as_slice()), (lines.len(), replies));
                    break;
                }
                assert!(replies.starts_with(&answers));
                if progress.taken == 0 {
                    // The next line is a list, or no line has room.
                    let line = &lines[begun..];
                    assert!(
                        size < RouteBook::LINE
                            || line.starts_with(b"all\n")
                            || line.starts_with(b"walk ")
                    );
                    break;
                }
            }
        }
    }
    Ok(())
}

#[test]
fn a_line_without_room_is_not_carried_out() -> Result<(), Error> {
    let mut book = RouteBook::new(3, 3, 3)?;
    let mut room = [7; RouteBook::LINE + 2];
    let progress = book.run(b"place 5 oak\nplace 6 elm\n", &mut room);
    assert_eq!(
        (progress.taken, progress.written, progress.is_short),
        (24, 4, false)
    );
    let progress = book.run(b"place 7 ash\nstart 1\nstart 1\n", &mut room);
    assert_eq!(
        (progress.taken, progress.written, progress.is_short),
        (20, 4, true)
    );
    assert_eq!((book.places(), book.stops(), book.marks()), (3, 1, 0));
    let progress = book.run(b"start 1\nall", &mut room);
    assert_eq!(
        (progress.taken, progress.written, progress.is_short),
        (8, 2, false)
    );
    assert_eq!(
        (&room[..2], &room[2..4], book.stops()),
        (&b"5\n"[..], &b"4\n"[..], 2)
    );
    let list = b"1 5 oak\n2 6 elm\n3 7 ash\nend\n";
    for size in 0..list.len() {
        let progress = book.run(b"all\n", &mut room[..size]);
        assert_eq!(
            (progress.taken, progress.written, progress.is_short),
            (0, 0, true)
        );
    }
    let progress = book.run(b"all\n", &mut room[..list.len()]);
    assert_eq!((progress.taken, progress.is_short), (4, false));
    assert_eq!(&room[..progress.written], list);
    Ok(())
}

#[test]
fn lists_of_any_length() -> Result<(), Error> {
    let mut book = RouteBook::new(1000, 1000, 0)?;
    let (mut list, mut walk, mut replies) = (String::new(), String::new(), Vec::new());
    for ticket in 1..=1000 {
        let line = format!("place {} oak{ticket}\n", ticket * 1_000_000_000_000_u64);
        list += &format!("{ticket} {} oak{ticket}\n", ticket * 1_000_000_000_000_u64);
        assert_eq!(book.answer(line.as_bytes(), &mut replies), line.len());
    }
    for ticket in 1001..=2000 {
        let line = match ticket {
            1001 => "start 1\n".to_owned(),
            _ => format!("extend {} 1\n", ticket - 1),
        };
        walk += &format!("{ticket} 1\n");
        assert_eq!(book.answer(line.as_bytes(), &mut replies), line.len());
    }
    replies.clear();
    book.answer(b"all\nwalk 1001\n", &mut replies);
    assert_eq!(
        String::from_utf8_lossy(&replies),
        format!("{list}end\n{walk}end\n")
    );
    Ok(())
}

#[test]
fn packs_change_no_reply() -> Result<(), Error> {
    for (rooms, lines, replies) in TEXTS {
        let mut book = made(rooms)?;
        let mut answers = Vec::new();
        for line in lines.split_inclusive(|byte| *byte == b'\n') {
            book.pack();
            assert_eq!(book.answer(line, &mut answers), line.len());
        }
        assert_eq!(answers, replies);
    }
    Ok(())
}

#[test]
fn rooms_and_their_refusals() -> Result<(), Error> {
    assert!(matches!(
        RouteBook::new(4_294_967_295, 0, 1),
        Err(Error::TooLarge)
    ));
    assert!(matches!(
        RouteBook::new(usize::MAX, usize::MAX, 2),
        Err(Error::TooLarge)
    ));
    assert_eq!(
        RouteBook::answer_all(0, 4_294_967_296, 0, b"all\n"),
        Err(Error::TooLarge)
    );
    assert_eq!(
        RouteBook::answer_all(0, 0, 0, b"place 1 a\nall"),
        Ok(b"full\nbad\n".to_vec())
    );
    let mut book = RouteBook::new(1, 1, 1)?;
    let mut replies = Vec::new();
    let input = b"place 1 a\nplace 2 b\nstart 1\nstart 1\nmark 1 2\nmark 1 2\n";
    assert_eq!(book.answer(input, &mut replies), input.len());
    assert_eq!(replies, b"1\nfull\n2\nfull\n3\nfull\n");
    assert_eq!((book.places(), book.stops(), book.marks()), (1, 1, 1));
    assert_eq!(
        format!("{book:?}"),
        "RouteBook { places: 1, stops: 1, marks: 1 }"
    );
    assert_eq!(
        Error::TooLarge.to_string(),
        "the rooms are together more than there are indexes"
    );
    Ok(())
}
