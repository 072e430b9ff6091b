//! How large things are in a list, and how long it goes on.
use crate::random::Random;

#[derive(Clone, Copy)]
pub struct Scene {
    pub c: u32,
    /// Most coordinates are at most this.
    pub span: u32,
    /// Most sizes are at most this.
    pub side: u32,
    pub screen: (u32, u32),
    /// So many windows are laid out at first.
    pub windows: u32,
    pub actions: u32,
    /// In so many of a thousand cases a call outside the common ground ends the list.
    pub ends: u32,
}

impl Scene {
    pub fn random(random: &mut Random) -> Scene {
        let kind = random.weighted::<fn(&mut Random) -> Scene>(&[
            (200, Scene::small),
            (160, Scene::many),
            (40, Scene::tiny),
            (24, Scene::wide),
            (1, Scene::panel),
        ]);
        kind(random)
    }

    /// A few windows that meet often.
    pub fn small(random: &mut Random) -> Scene {
        let span = random.from_to(4, 16);
        Scene {
            c: random.from_to(20, 150),
            span,
            side: random.from_to(3, 14),
            screen: (random.from_to(1, span + 6), random.from_to(1, span + 4)),
            windows: random.from_to(1, 4),
            actions: random.from_to(10, 150),
            ends: random.pick(&[0, 5, 20, 100, 400]),
        }
    }

    /// Up to sixteen windows.
    pub fn many(random: &mut Random) -> Scene {
        Scene {
            c: random.from_to(60, 200),
            span: 30,
            screen: (36, 24),
            windows: random.from_to(5, 16),
            ..Scene::small(random)
        }
    }

    /// Stores of a few pixels.
    fn tiny(random: &mut Random) -> Scene {
        Scene {
            c: random.from_to(1, 6),
            span: 5,
            side: 4,
            screen: (random.from_to(1, 6), random.from_to(1, 5)),
            ..Scene::small(random)
        }
    }

    /// Long windows and far places.
    fn wide(random: &mut Random) -> Scene {
        Scene {
            c: random.pick(&[32_767, 32_768, 65_536]),
            span: 32_767,
            side: 32_767,
            actions: 30,
            ..Scene::small(random)
        }
    }

    /// The panel of the customer: 800 by 480 pixels, sixteen windows.
    fn panel(random: &mut Random) -> Scene {
        Scene { c: 65_536, span: 799, side: 250, screen: (800, 480), windows: 16, actions: 30, ..Scene::small(random) }
    }
}
