//! Courses within courses (W-213).

use brunskerl::{CourseTotal, Courses, Entry, LARGEST, Model, Office, Refusal, Sheet};

fn stone() -> (Model, u32) {
    let mut model = Model::new(LARGEST, 0.001).expect("a model is made");
    let body = model.insert_box([4.0, 3.0, 2.0]).expect("there is room");
    (model, body)
}

/// Courses of so many entries, each of the course before it, the first of a body.
fn nested(body: u32, levels: u32, entries: usize) -> Courses {
    let mut courses = Courses::new(8);
    for level in 0..levels {
        let course = courses.insert().unwrap();
        assert_eq!(course, level);
        for _ in 0..entries {
            let entry = if level == 0 { Entry::Body(body) } else { Entry::Course(level - 1) };
            courses.append(course, entry).unwrap();
        }
    }
    courses
}

/// A full table of four levels has as many stones as a sheet takes, and the same total.
#[test]
fn as_many_as_a_sheet() {
    let (model, body) = stone();
    let courses = nested(body, 5, 16);
    for (course, stones) in [(0, 16), (1, 256), (2, 4_096), (3, 65_536)] {
        let total = i128::from(stones) * 589_824;
        assert_eq!(model.course_total(&courses, course), Ok(CourseTotal { stones, total }));
    }
    assert_eq!(model.course_total(&courses, 4), Err(Refusal::BadArgument));
    let mut sheet = Sheet::new();
    for _ in 0..256 {
        model.take(body, &mut sheet).unwrap();
    }
    let given = model.course_total(&courses, 1).unwrap();
    assert_eq!((given.stones, given.total), (sheet.stones(), sheet.total()));
}

/// Empty courses, courses used twice, those that list themselves, and what is missing.
#[test]
fn what_is_met() {
    let (mut model, body) = stone();
    let mut courses = nested(body, 2, 2);
    let empty = courses.insert().unwrap();
    assert_eq!(model.course_total(&courses, empty), Ok(CourseTotal { stones: 0, total: 0 }));
    courses.append(empty, Entry::Course(1)).unwrap();
    courses.append(empty, Entry::Body(body)).unwrap();
    assert_eq!(
        model.course_total(&courses, empty),
        Ok(CourseTotal {
            stones: 5,
            total: 5 * 589_824
        })
    );
    // 2 stands before 1, wherever each is met.
    courses.append(empty, Entry::Course(empty)).unwrap();
    assert_eq!(model.course_total(&courses, empty), Err(Refusal::BadArgument));
    courses.append(empty, Entry::Body(7)).unwrap();
    assert_eq!(model.course_total(&courses, empty), Err(Refusal::NotFound));
    courses.put(empty, 3, Entry::Course(99)).unwrap();
    assert_eq!(model.course_total(&courses, empty), Err(Refusal::NotFound));
    assert_eq!(model.course_total(&courses, 99), Err(Refusal::NotFound));
    // A body that is refused, and the other office's.
    courses.strike(empty, 3).unwrap();
    courses.strike(empty, 2).unwrap();
    model
        .set_vertex(
            0,
            brunskerl::Vertex {
                point: [0.1, 0.0, 0.0],
                tolerance: None,
            },
        )
        .unwrap();
    assert_eq!(model.course_total(&courses, empty), Err(Refusal::OffGrid));
    let other = model.held_by(Office::Second);
    assert_eq!(other.course_total(&courses, empty), Err(Refusal::NotFound));
}

#[test]
fn edits() {
    let mut courses = Courses::new(1);
    assert_eq!(courses.count(), 0);
    assert_eq!(courses.entries(0), Err(Refusal::NotFound));
    assert_eq!(courses.append(0, Entry::Body(0)), Err(Refusal::NotFound));
    let course = courses.insert().unwrap();
    assert_eq!(courses.insert(), Err(Refusal::NoRoom));
    assert_eq!((course, courses.count()), (0, 1));
    for id in 0..16 {
        courses.append(course, Entry::Body(id)).unwrap();
    }
    assert_eq!(courses.append(course, Entry::Body(16)), Err(Refusal::NoRoom));
    assert_eq!(courses.put(course, 0, Entry::Course(65_536)), Err(Refusal::BadArgument));
    assert_eq!(courses.put(course, 16, Entry::Course(3)), Err(Refusal::BadArgument));
    courses.put(course, 15, Entry::Course(65_535)).unwrap();
    courses.strike(course, 0).unwrap();
    assert_eq!(courses.strike(course, 15), Err(Refusal::BadArgument));
    let entries = courses.entries(course).unwrap();
    assert_eq!(
        (entries.len(), entries[0], entries[14]),
        (15, Entry::Body(1), Entry::Course(65_535))
    );
    assert_eq!(courses.entry(course, 15), Err(Refusal::BadArgument));
}
