//! Every call through the bindings, with what it hands back and a refusal.
use roqshyn::*;

const C: u32 = 64;

/// Two windows shown, the plan of 8 by 8 and a panel of 4 by 3 at (2,3).
struct Station {
    session: Session,
    store: Vec<u32>,
    screen: Vec<u32>,
    plan: Id,
    panel: Id,
}

fn station() -> Station {
    let mut store = vec![0; WINDOWS * C as usize];
    let mut session = Session::start(C).unwrap();
    let (plan, panel) = (session.create().unwrap(), session.create().unwrap());
    session.resize(plan, 8, 8, &mut store).unwrap();
    session.resize(panel, 4, 3, &mut store).unwrap();
    session.move_window(panel, 2, 3).unwrap();
    session.show(plan).unwrap();
    session.show(panel).unwrap();
    Station { session, store, screen: vec![0; 64], plan, panel }
}

fn press(x: u32, y: u32) -> Event {
    Event::MouseDown { at: Pos::new(x, y), button: 1 }
}

#[test]
fn a_start_is_refused() {
    assert_eq!(Session::start(0).err(), Some(Error::Capacity));
    assert_eq!(Session::start(1_048_577).err(), Some(Error::Capacity));
}

#[test]
fn ids() {
    let mut session = Session::start(1).unwrap();
    for number in 0..16 {
        assert_eq!(session.create(), Ok(Id::from(number)));
    }
    assert_eq!(session.create(), Err(Error::NoFreeId));
    assert_eq!(session.drop(Id::from(3)), Ok(()));
    assert_eq!(session.create(), Ok(Id::from(3)));
}

/// The session as the library has it in memory.
fn bytes(session: &Session) -> Vec<u8> {
    let start = (session as *const Session).cast::<u8>();
    // SAFETY: the session is words alone, and all of them were set when it was begun.
    unsafe { std::slice::from_raw_parts(start, size_of::<Session>()) }.to_vec()
}

/// 65,536 cut to 16 bits would be the plan.
#[test]
fn ids_that_no_window_has() {
    let Station { mut session, mut store, .. } = station();
    let (before, pixels, area) = (bytes(&session), store.clone(), Rect::new(0, 0, 1, 1));
    for number in [16, 65_535, 65_536, 4_294_967_295] {
        let id = Id::from(number);
        let answers = [
            session.show(id).err(),
            session.hide(id).err(),
            session.drop(id).err(),
            session.mark(id).err(),
            session.move_window(id, 1, 1).err(),
            session.drag(id, 1, 1).err(),
            session.set_layer(id, 1).err(),
            session.resize(id, 1, 1, &mut store).err(),
            session.maximise(id, &mut store).err(),
            session.fill(id, area, 9, &mut store).err(),
            session.blit(id, area, 1, &[9], &mut store).err(),
            session.pop(id).err(),
            session.visible(id, &mut []).err(),
            session.share(id).err(),
            session.look(id, Look::fit(), 1, 1, &store, &mut [0]).err(),
            session.sheet(id, &mut []).err(),
            session.rect_of(id).err(),
            session.window(id).err(),
        ];
        assert_eq!(answers, [Some(Error::UnknownId); 18], "{number}");
        assert!(bytes(&session) == before && store == pixels, "{number}");
    }
}

#[test]
fn pixels_of_windows() {
    let Station { mut session, mut store, mut screen, plan, panel } = station();
    assert_eq!(session.fill(plan, Rect::new(0, 0, 8, 8), 7, &mut store), Ok(64));
    assert_eq!(session.fill(plan, Rect::new(0, 0, 8, 8), 7, &mut store), Ok(0));
    assert_eq!(session.blit(panel, Rect::new(0, 0, 2, 2), 3, &[1, 2, 9, 3, 4, 9], &mut store), Ok(4));
    assert_eq!(session.fill(plan, Rect::new(0, 0, 1, 1), 7, &mut store[1..]), Err(Error::StoreLength));
    assert_eq!(session.blit(panel, Rect::new(0, 0, 1, 1), 0, &[1], &mut store), Err(Error::Stride));
    assert_eq!(session.resize(panel, 9, 8, &mut store), Err(Error::WindowSize));
    assert_eq!(session.redraw(false, 8, 7, &store, &mut screen), Err(Error::ScreenSize));
    assert_eq!(session.redraw(false, 8, 8, &store, &mut screen), Ok(()));
    assert_eq!(screen[3 * 8..3 * 8 + 8], [7, 7, 1, 2, 0, 0, 7, 7]);
    assert_eq!(session.move_window(panel, 32_768, 0), Err(Error::TooLarge));
    assert_eq!(session.fill(panel, Rect::new(0, 0, 1, 1), 5, &mut store), Ok(1));
    assert_eq!((session.redraw(false, 8, 8, &store, &mut screen), screen[3 * 8 + 2]), (Ok(()), 1));
    assert_eq!(session.mark(panel), Ok(()));
    assert_eq!((session.redraw(false, 8, 8, &store, &mut screen), screen[3 * 8 + 2]), (Ok(()), 5));
}

#[test]
fn portions_and_dimming() {
    let Station { mut session, mut store, mut screen, plan, .. } = station();
    assert_eq!(session.portion(8, 8, &store, &mut screen), Err(Error::NoWalk));
    assert_eq!(session.fill(plan, Rect::new(0, 0, 8, 8), 0x80, &mut store), Ok(64));
    assert_eq!((session.dim(true), session.begin(false)), (Ok(()), Ok(())));
    assert_eq!((session.portion(8, 8, &store, &mut screen), screen[0]), (Ok(()), 0x40));
    assert_eq!(session.portion(8, 8, &store, &mut screen), Ok(()));
    assert_eq!(session.portion(8, 8, &store, &mut screen), Err(Error::NoWalk));
}

#[test]
fn a_panel_stays_on_top() {
    let Station { mut session, mut store, mut screen, plan, panel } = station();
    assert_eq!(session.fill(plan, Rect::new(0, 0, 8, 8), 7, &mut store), Ok(64));
    assert_eq!(session.set_layer(panel, 2), Err(Error::Layer));
    assert_eq!((session.set_layer(panel, 1), session.hide(plan), session.show(plan)), (Ok(()), Ok(()), Ok(())));
    assert_eq!(session.focus(), plan);
    assert_eq!((session.route(press(3, 4)), session.pop(panel)), (Ok(()), Ok(Event::Resize)));
    assert_eq!(session.pop(panel), Ok(press(1, 1)));
    assert_eq!((session.redraw(false, 8, 8, &store, &mut screen), screen[3 * 8 + 2]), (Ok(()), 0));
}

#[test]
fn a_raise_keeps_the_press() {
    let Station { mut session, mut store, mut screen, plan, panel } = station();
    assert_eq!(session.fill(panel, Rect::new(0, 0, 4, 3), 7, &mut store), Ok(12));
    assert_eq!((session.redraw(false, 8, 8, &store, &mut screen), screen[3 * 8 + 2]), (Ok(()), 7));
    assert_eq!((session.route(press(3, 4)), session.raise(plan), session.focus()), (Ok(()), Ok(()), plan));
    assert_eq!((session.redraw(false, 8, 8, &store, &mut screen), screen[3 * 8 + 2]), (Ok(()), 0));
    // The plan covers the panel, which took the press and so gets the release.
    let up = |x, y| Event::MouseUp { at: Pos::new(x, y), button: 1 };
    assert_eq!((session.route(up(0, 0)), session.pop(panel)), (Ok(()), Ok(Event::Resize)));
    assert_eq!((session.pop(panel), session.pop(panel)), (Ok(press(1, 1)), Ok(up(0, 0))));
    assert_eq!((session.hide(panel), session.raise(panel), session.focus()), (Ok(()), Ok(()), panel));
    assert_eq!((session.redraw(false, 8, 8, &store, &mut screen), screen[3 * 8 + 2]), (Ok(()), 7));
    assert_eq!(session.raise(Id::from(2)), Err(Error::UnknownId));
}

#[test]
fn a_drag_draws_two_places() {
    let Station { mut session, mut store, mut screen, plan, panel } = station();
    assert_eq!(session.fill(plan, Rect::new(0, 0, 8, 8), 7, &mut store), Ok(64));
    assert_eq!((session.redraw(false, 8, 8, &store, &mut screen), screen[3 * 8 + 2]), (Ok(()), 0));
    // Pixels that somebody else wrote show what a redraw does not write.
    screen.fill(9);
    assert_eq!((session.drag(panel, 3, 3), session.rect_of(panel)), (Ok(()), Ok(Rect::new(3, 3, 4, 3))));
    assert_eq!(session.redraw(false, 8, 8, &store, &mut screen), Ok(()));
    assert_eq!(screen[3 * 8..4 * 8], [9, 9, 7, 0, 0, 0, 0, 9]);
    assert!(screen[..3 * 8].iter().chain(&screen[6 * 8..]).all(|&pixel| pixel == 9));
    // With a debt it is a move. A hidden one owes nothing.
    assert_eq!((session.hide(panel), session.drag(plan, 0, 0), session.drag(panel, 0, 0)), (Ok(()), Ok(()), Ok(())));
    assert_eq!((session.redraw(false, 8, 8, &store, &mut screen), screen == [7; 64]), (Ok(()), true));
    screen.fill(9);
    assert_eq!((session.drag(panel, 1, 1), session.redraw(false, 8, 8, &store, &mut screen)), (Ok(()), Ok(())));
    assert!(screen == [9; 64]);
    assert_eq!(session.drag(panel, 0, 32_768), Err(Error::TooLarge));
}

#[test]
fn displays() {
    let Station { mut session, mut store, plan, panel, .. } = station();
    let (left, right) = (Rect::new(0, 0, 8, 8), Rect::new(20, 20, 10, 6));
    assert_eq!(session.display_at(Pos::new(1, 1)), Ok(Located::Closest(Rect::default())));
    assert_eq!(session.add_display(Rect::new(0, 0, 0, 8)), Err(Error::DisplaySize));
    assert_eq!((session.add_display(left), session.add_display(right)), (Ok(()), Ok(())));
    assert_eq!(session.display_at(Pos::new(7, 7)), Ok(Located::On(left)));
    assert_eq!(session.display_at(Pos::new(14, 14)), Ok(Located::Closest(right)));
    assert_eq!(session.display_at(Pos::new(0, 32_768)), Err(Error::TooLarge));

    // The panel lies on the left display and fills it; the plan, moved off both, comes to the right one.
    assert_eq!(session.maximise(panel, &mut store[1..]), Err(Error::StoreLength));
    assert_eq!((session.maximise(panel, &mut store), session.rect_of(panel)), (Ok(()), Ok(left)));
    assert_eq!((session.pop(panel), session.pop(panel)), (Ok(Event::Resize), Ok(Event::Resize)));
    assert_eq!((session.move_window(plan, 90, 25), session.update_dims(&mut store)), (Ok(()), Ok(())));
    assert_eq!(session.rect_of(plan), Ok(Rect::new(20, 20, 8, 8)));
    // Still maximised, until it is moved.
    assert_eq!((session.pop(panel), session.pop(panel)), (Ok(Event::Resize), Err(Error::NoEvent)));
    assert_eq!((session.move_window(panel, 1, 1), session.update_dims(&mut store)), (Ok(()), Ok(())));
    assert_eq!((session.pop(panel), session.rect_of(panel)), (Err(Error::NoEvent), Ok(Rect::new(1, 1, 8, 8))));

    // The third display has more pixels than a window may: nothing changes.
    assert_eq!(session.add_display(Rect::new(40, 0, 9, 8)), Ok(()));
    assert_eq!(
        (session.move_window(panel, 44, 3), session.maximise(panel, &mut store)),
        (Ok(()), Err(Error::WindowSize))
    );
    assert_eq!(session.rect_of(panel), Ok(Rect::new(44, 3, 8, 8)));
    for _ in 3..MOST_DISPLAYS {
        assert_eq!(session.add_display(left), Ok(()));
    }
    assert_eq!(session.add_display(left), Err(Error::TooManyDisplays));
}

#[test]
fn events_there_and_back() {
    let Station { mut session, plan, panel, .. } = station();
    let at = Pos::new(3, 4);
    let (click, up) = (Event::MouseClick { at, button: 5, count: 6 }, Event::MouseUp { at: Pos::new(0, 7), button: 1 });
    for event in [Event::KeyDown(7), Event::KeyUp(8), Event::Text(9), press(3, 4), click, Event::mouse_move(at), up] {
        assert_eq!(session.route(event), Ok(()), "{event:?}");
    }
    assert_eq!(session.route(Event::KeyFire(1)), Err(Error::KeyFire));
    assert_eq!(session.route(press(8, 0)), Err(Error::NoWindow));
    assert_eq!(session.route(Event::Resize), Ok(()));
    let at = Pos::new(1, 1);
    // The release is off the panel: it comes at its nearest pixel, and before the move.
    let (click, up) = (Event::MouseClick { at, button: 5, count: 6 }, Event::MouseUp { at: Pos::new(0, 2), button: 1 });
    let moved = Event::MouseMove { at, dx: 1, dy: 1 };
    for event in [Event::Resize, Event::KeyDown(7), Event::KeyUp(8), Event::Text(9), press(1, 1), click, up, moved] {
        assert_eq!(session.pop(panel), Ok(event));
    }
    assert_eq!(session.pop(panel), Err(Error::NoEvent));
    for _ in 1..16 {
        assert_eq!(session.route(press(0, 0)), Ok(()));
    }
    assert_eq!(session.route(press(0, 0)), Err(Error::QueueFull));
    assert_eq!(session.pop(plan), Ok(Event::Resize));
}

#[test]
fn what_waits() {
    let Station { mut session, plan, panel, .. } = station();
    let waiting = |session: &Session| session.waiting().collect::<Vec<_>>();
    assert_eq!(waiting(&session), [plan, panel]);
    assert_eq!(
        (session.pop(plan), session.pop(panel), waiting(&session)),
        (Ok(Event::Resize), Ok(Event::Resize), vec![])
    );
    assert_eq!((session.route(Event::mouse_move(Pos::new(3, 4))), waiting(&session)), (Ok(()), vec![panel]));
}

#[test]
fn who_took_it() {
    let Station { mut session, panel, .. } = station();
    let at = Pos::new(3, 4);
    let corner = session.rect_of(panel).unwrap().pos;
    let inside = Pos::new(at.x - corner.x, at.y - corner.y);
    assert_eq!(session.route_to(Event::mouse_move(at)), Ok(Some((panel, inside))));
    assert_eq!(session.route_to(Event::MouseDown { at, button: 1 }), Ok(Some((panel, inside))));
    assert_eq!(session.route_to(Event::Text(9)), Ok(Some((panel, Pos::new(0, 0)))));
    assert_eq!(session.route_to(Event::Resize), Ok(None));
    assert_eq!(session.route_to(Event::KeyFire(9)), Err(Error::KeyFire));
}

#[test]
fn what_is_stale() {
    let Station { mut session, mut store, mut screen, plan, panel } = station();
    let whole = Rect::new(0, 0, 8, 8);
    assert_eq!(session.stale(Meant::Redraw, whole), Ok(Some(whole)));
    assert_eq!(session.redraw(false, 8, 8, &store, &mut screen), Ok(()));
    assert_eq!(
        (session.stale(Meant::Redraw, whole), session.stale(Meant::Portion, whole)),
        (Ok(None), Err(Error::NoWalk))
    );
    let part = Rect::new(1, 1, 3, 3);
    assert_eq!(session.stale(Meant::ForcedRedraw, part), Ok(Some(part)));
    // Of the pixels written, two rows lie under the panel.
    assert_eq!((session.fill(plan, Rect::new(2, 2, 2, 3), 7, &mut store), session.mark(plan)), (Ok(6), Ok(())));
    assert_eq!(session.stale(Meant::Redraw, whole), Ok(Some(Rect::new(2, 2, 2, 1))));
    assert_eq!((session.begin(false), session.stale(Meant::Portion, whole)), (Ok(()), Ok(Some(Rect::new(2, 2, 2, 1)))));
    assert_eq!((session.portion(8, 8, &store, &mut screen), session.stale(Meant::Portion, whole)), (Ok(()), Ok(None)));
    assert_eq!((session.drag(panel, 3, 3), session.stale(Meant::Redraw, whole)), (Ok(()), Ok(Some(whole))));
    assert_eq!(session.redraw(false, 8, 8, &store, &mut screen), Ok(()));
    assert_eq!(
        (session.drag(panel, 2, 3), session.stale(Meant::Redraw, whole)),
        (Ok(()), Ok(Some(Rect::new(2, 3, 5, 3))))
    );
    assert_eq!(session.stale(Meant::Redraw, Rect::new(0, 32_768, 1, 1)), Err(Error::TooLarge));
}

#[test]
fn how_things_stand() {
    let Station { mut session, mut store, mut screen, plan, panel } = station();
    let fresh = SessionState { grab: None, dimmed: false, owed: true, walk: None, ..session.state() };
    assert_eq!((fresh, fresh.c, fresh.shown, fresh.focus, fresh.displays), (session.state(), C, 2, Some(panel), 0));
    assert_eq!((session.route(press(3, 4)), session.dim(true), session.begin(true)), (Ok(()), Ok(()), Ok(())));
    assert_eq!(
        (session.portion(8, 8, &store, &mut screen), session.add_display(Rect::new(0, 0, 8, 8))),
        (Ok(()), Ok(()))
    );
    let walk = Some(Walk { full: true, left: 1 });
    assert_eq!(session.state(), SessionState { grab: Some(panel), dimmed: true, walk, displays: 1, ..fresh });
    let placed = WindowState {
        rect: Rect::new(2, 3, 4, 3),
        place: Some(1),
        layer: 0,
        maximised: false,
        marked: false,
        queued: 2,
        moved: false,
    };
    assert_eq!((session.window(panel), session.window(plan).unwrap().place), (Ok(placed), Some(0)));
    assert_eq!((session.maximise(panel, &mut store), session.set_layer(panel, 1)), (Ok(()), Ok(())));
    assert_eq!((session.mark(panel), session.route(Event::mouse_move(Pos::new(3, 4)))), (Ok(()), Ok(())));
    let (rect, place) = (Rect::new(0, 0, 8, 8), Some(1));
    let changed = WindowState { rect, place, layer: 1, maximised: true, marked: true, queued: 3, moved: true };
    assert_eq!(session.window(panel), Ok(changed));
    assert_eq!((session.hide(panel), session.window(panel)), (Ok(()), Ok(WindowState { place: None, ..changed })));
    assert_eq!((session.hide(plan), session.state().focus, session.state().walk), (Ok(()), None, None));
}

#[test]
fn views() {
    let Station { mut session, plan, panel, .. } = station();
    let mut list = [Rect::default(); MOST_RECTS];
    let seen = [Rect::new(0, 0, 8, 3), Rect::new(0, 3, 2, 3), Rect::new(6, 3, 2, 3), Rect::new(0, 6, 8, 2)];
    assert_eq!(session.visible(plan, &mut list), Ok(&seen[..]));
    assert_eq!(session.visible(plan, &mut list[..3]), Err(Error::ListLength));
    assert_eq!(session.share(plan), Ok(Share { percent: 81, remainder: 16 }));
    let points = [Pos::new(2, 3), Pos::new(7, 7), Pos::new(8, 8)];
    let mut answers = [Hit::default(); MOST_POINTS];
    let hits = session.hits(&points, &mut answers).unwrap();
    assert_eq!(hits.iter().map(|h| h.id()).collect::<Vec<_>>(), [Some(panel), Some(plan), None]);
    assert_eq!((hits[0].at, hits[1].at), (Pos::new(0, 0), Pos::new(7, 7)));
    assert_eq!(session.hits(&points, &mut answers[..2]), Err(Error::Points));
    assert_eq!((session.focus(), session.rect_of(panel)), (panel, Ok(Rect::new(2, 3, 4, 3))));
    assert_eq!((session.hide(panel), session.focus(), session.share(panel)), (Ok(()), plan, Err(Error::NotInView)));
}

#[test]
fn sheets() {
    let Station { mut session, plan, panel, .. } = station();
    let (mut bytes, mut list) = ([9; MOST_SHEET], [Rect::default(); MOST_RECTS]);
    let seen = [Rect::new(0, 0, 8, 3), Rect::new(0, 3, 2, 3), Rect::new(6, 3, 2, 3), Rect::new(0, 6, 8, 2)];
    let sheet = session.sheet(plan, &mut bytes).unwrap();
    assert_eq!(sheet[..10], [12, 0, 0, 0, 48, 128, 0, 0, 16, 0]);
    assert_eq!(read_sheet(sheet, &mut list), Ok(&seen[..]));
    assert_eq!(read_sheet(sheet, &mut list[..3]), Err(Error::SheetLength));
    assert_eq!(read_sheet(&sheet[1..], &mut list), Err(Error::NoSheet));
    assert_eq!((sheet.len(), bytes[29]), (29, 9));
    assert_eq!(session.sheet(plan, &mut bytes[..28]), Err(Error::SheetLength));
    assert_eq!(session.sheet(Id::from(2), &mut bytes), Err(Error::UnknownId));
    assert_eq!((session.hide(panel), session.sheet(panel, &mut bytes)), (Ok(()), Ok(&[0][..])));
    assert_eq!((read_sheet(&[0], &mut []), read_sheet(&[], &mut [])), (Ok(&[][..]), Err(Error::NoSheet)));
}

/// Numbers, each with its bits, most significant first.
fn packed(numbers: &[(u32, u32)]) -> Vec<u8> {
    let bits_of = |&(number, bits): &(u32, u32)| (0..bits).rev().map(move |place| (number >> place & 1) as u8);
    let bits: Vec<u8> = numbers.iter().flat_map(bits_of).collect();
    bits.chunks(8).map(|byte| byte.iter().enumerate().map(|(place, bit)| bit << (7 - place)).sum()).collect()
}

/// Bands of 31 intervals each, which do not touch.
fn largest(bands: u32) -> Vec<u8> {
    let sides = (0..62).map(|column| (32_767 - 61 + column, 15));
    let band = |row: u32| [(2 * row, 15), (2 * row + 1, 15), (31, 5)].into_iter().chain(sides.clone());
    packed(&[(bands, 6)].into_iter().chain((0..bands).flat_map(band)).collect::<Vec<_>>())
}

#[test]
fn the_largest_sheet() {
    let (bytes, mut list) = (largest(63), [Rect::default(); MOST_READ]);
    let read = read_sheet(&bytes, &mut list).unwrap();
    assert_eq!((bytes.len(), read.len(), read[MOST_READ - 1]), (7_601, MOST_READ, Rect::new(32_766, 124, 1, 1)));
    assert_eq!(read_sheet(&bytes, &mut list[1..]), Err(Error::SheetLength));
    assert_eq!(read_sheet(&bytes[..7_600], &mut list), Err(Error::NoSheet));
}

#[test]
fn looks() {
    let Station { session, mut store, plan, .. } = station();
    store[..4].copy_from_slice(&[1, 2, 3, 4]);
    let mut target = [9; 4];
    let look = Look { x: 0.5, y: 0.0, zoom: Zoom::Factor(2.0) };
    assert_eq!((session.look(plan, look, 4, 1, &store, &mut target), target), (Ok(()), [1, 2, 2, 3]));
    assert_eq!((session.look(plan, Look::fit(), 2, 2, &store, &mut target), target), (Ok(()), [1, 0, 0, 0]));
    let third = Look { zoom: Zoom::Factor(3.0), ..look };
    assert_eq!((session.look(plan, third, 4, 1, &store, &mut target), target), (Err(Error::Look), [1, 0, 0, 0]));
    assert_eq!(session.look(plan, look, 4, 2, &store, &mut target), Err(Error::TargetSize));
}

#[test]
fn rectangles_alone() {
    let (a, b) = (Rect::new(0, 0, 10, 10), Rect::new(4, 3, 9, 2));
    assert_eq!((a.contains(Pos::new(9, 9)), a.contains(Pos::new(10, 9))), (Ok(true), Ok(false)));
    assert_eq!((a.contains_rect(Rect::new(1, 1, 9, 9)), a.within(10, 9)), (Ok(true), Ok(false)));
    assert_eq!((a.intersect(b), a.union(b)), (Ok(Some(Rect::new(4, 3, 6, 2))), Ok(Rect::new(0, 0, 13, 10))));
    assert_eq!(a.intersect(Rect::new(10, 0, 1, 1)), Ok(None));
    assert_eq!(
        a.not_intersect(b).unwrap()[..],
        [Rect::new(0, 0, 10, 3), Rect::new(0, 3, 4, 2), Rect::new(0, 5, 10, 5)]
    );
    assert_eq!(Rect::new(u32::MAX, 0, 1, 1).union(a), Err(Error::EdgeTooLarge));
}

#[test]
fn pixels_alone() {
    let mut pixels: Vec<u32> = (0..64).collect();
    assert_eq!(scanline(&pixels, 8, 8, 3, 2, 100), Ok(&[26, 27, 28, 29, 30, 31][..]));
    assert_eq!(scanline(&pixels, 8, 8, 8, 0, 1), Err(Error::OutsidePixels));
    assert_eq!(region(&pixels, 8, 1, 2, 3, 2).map(|r| (r[0], r.len())), Ok((17, 11)));
    scanline_mut(&mut pixels, 8, 8, 0, 0, 2).unwrap().fill(99);
    region_mut(&mut pixels, 8, 2, 0, 1, 1).unwrap()[0] = 98;
    assert_eq!(pixels[..4], [99, 99, 98, 3]);
    assert_eq!(fill_scanline(&mut pixels, 8, 8, 0, 1, 9, 99), Ok(6));
    assert_eq!(set_scanline(&mut pixels, 8, 8, 0, 0, 8, &[99, 5]), Ok(1));
}

#[test]
fn times_alone() {
    assert_eq!(busiest(&[7, 1007, 2006, 2006, 2007]), Ok(Second { count: 3, place: 1 }));
    assert_eq!(busiest(&[2, 1]), Err(Error::TimesDescend));
    assert_eq!(busiest(&[0; 4097]), Err(Error::RunLength));
}

#[test]
fn an_error_says_its_question() {
    let said = Error::NoEvent.to_string();
    assert_eq!(said, "the window has no event to pop");
}
