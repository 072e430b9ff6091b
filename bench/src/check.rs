//! Both sides must say and show the same before they are timed.
use crate::call::{Area, Call, Side, State};
use crate::class::Class;

/// Plays the setup, and twice the calls of the class, so that the second time finds what the first has left.
pub fn same(class: &Class, ours: &mut impl Side, theirs: &mut impl Side) {
    for calls in [&class.scene.setup, &class.timed, &class.between, &class.timed, &class.between] {
        for call in calls {
            one(class, call, ours, theirs);
        }
        let (a, b) = (ours.state(), theirs.state());
        assert!(same_states(class, a, b), "{}: the two sides differ", class.name);
    }
}

fn one(class: &Class, call: &Call, ours: &mut impl Side, theirs: &mut impl Side) {
    let name = &class.name;
    let (a, b) = (ours.call(call), theirs.call(call));
    let cut_differently = class.beside.is_pixman() && matches!(call, Call::Visible(_));
    assert!(a == b || cut_differently, "{name}: {call:?}: ours {a:?}, the other side's {b:?}");
    if let Call::Redraw(_) = call {
        let same = ours.is_screen(&|ours| theirs.is_screen(&|theirs| ours == theirs));
        assert!(same, "{name}: the screens differ after a redraw");
    }
}

/// Pixman cuts what is visible into other rectangles.
fn same_states(class: &Class, mut a: State, mut b: State) -> bool {
    if class.beside.is_pixman() {
        let all = |state: &mut State| std::mem::take(&mut state.visible);
        for (a, b) in all(&mut a).iter().zip(&all(&mut b)) {
            if covered(class, a) != covered(class, b) {
                return false;
            }
        }
    }
    a == b
}

/// How many of the rectangles cover each place of a window that is no larger than the screen.
fn covered(class: &Class, rectangles: &[Area]) -> Vec<u8> {
    let width = class.scene.width as usize;
    let mut covered = vec![0; width * class.scene.height as usize];
    for &Area(x, y, w, h) in rectangles {
        for row in y..y + h {
            let start = row as usize * width + x as usize;
            covered[start..start + w as usize].iter_mut().for_each(|times| *times += 1);
        }
    }
    covered
}

/// Where there is nothing to compare with.
pub fn alone(class: &Class, ours: &mut impl Side) {
    for call in &class.scene.setup {
        ours.call(call);
    }
}
