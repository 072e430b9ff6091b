use roqshyn::{Error, Event, Pos, Rect, Session, WINDOWS};

const BLUE: u32 = 0x28_5a96;
const AMBER: u32 = 0xf0_b428;

fn main() -> Result<(), Error> {
    let (mut store, mut screen) = (vec![0; WINDOWS * 160], vec![0; 160]);
    let mut session = Session::start(160)?; // 16 windows, each of at most 160 pixels
    let panel = session.create()?;
    session.resize(panel, 32, 5, &mut store)?;
    session.show(panel)?;
    session.fill(panel, Rect::new(0, 0, 32, 5), BLUE, &mut store)?;
    session.fill(panel, Rect::new(3, 1, 10, 3), AMBER, &mut store)?;
    session.mark(panel)?; // after the last write
    session.redraw(false, 32, 5, &store, &mut screen)?;
    session.route(Event::MouseDown { at: Pos::new(5, 2), button: 1 })?;
    assert_eq!(screen[0], BLUE);
    for row in screen.chunks(32) {
        let shown = |&pixel: &u32| if pixel == AMBER { '#' } else { '.' };
        println!("{}", row.iter().map(shown).collect::<String>());
    }
    while let Ok(event) = session.pop(panel) {
        if let Event::MouseDown { at, .. } = event {
            println!("pressed at {}, {}", at.x, at.y);
        }
    }
    Ok(())
}
