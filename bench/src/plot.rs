//! Curves as an SVG picture.

pub struct Curve {
    pub name: &'static str,
    pub colour: &'static str,
    pub points: Vec<(f64, f64)>,
}

pub struct Plot<'a> {
    pub title: &'a str,
    pub across: &'a str,
    pub up: &'a str,
    pub curves: Vec<Curve>,
}

/// The picture, and the field of the curves in it.
const WIDTH: f64 = 720.0;
const HEIGHT: f64 = 440.0;
const LEFT: f64 = 80.0;
const RIGHT: f64 = 700.0;
const TOP: f64 = 40.0;
const BOTTOM: f64 = 380.0;

impl Plot<'_> {
    /// Both axes begin at 0 and are not bent, so that a time in proportion to something is a straight line through the corner.
    pub fn svg(&self) -> String {
        let points = || self.curves.iter().flat_map(|c| &c.points);
        let (x_step, x_most) = axis(points().map(|p| p.0).fold(0.0, f64::max));
        let (y_step, y_most) = axis(points().map(|p| p.1).fold(0.0, f64::max));
        let place = |x: f64, y: f64| (LEFT + x / x_most * (RIGHT - LEFT), BOTTOM - y / y_most * (BOTTOM - TOP));
        let mut svg = format!(
            "<svg xmlns=\"http://www.w3.org/2000/svg\" viewBox=\"0 0 {WIDTH} {HEIGHT}\" font-family=\"sans-serif\" font-size=\"13\">\n\
             <rect width=\"{WIDTH}\" height=\"{HEIGHT}\" fill=\"white\"/>\n"
        );
        svg += &text((LEFT + RIGHT) / 2.0, 22.0, "middle", self.title);
        svg += &text((LEFT + RIGHT) / 2.0, HEIGHT - 16.0, "middle", self.across);
        svg += &format!(
            "<g transform=\"rotate(-90)\">{}</g>\n",
            text(-(TOP + BOTTOM) / 2.0, 18.0, "middle", self.up).trim()
        );
        for x in marks(x_step, x_most) {
            let (at, _) = place(x, 0.0);
            svg += &line((at, TOP), (at, BOTTOM));
            svg += &text(at, BOTTOM + 18.0, "middle", &number(x));
        }
        for y in marks(y_step, y_most) {
            let (_, at) = place(0.0, y);
            svg += &line((LEFT, at), (RIGHT, at));
            svg += &text(LEFT - 8.0, at + 4.0, "end", &number(y));
        }
        for (i, curve) in self.curves.iter().enumerate() {
            svg += &drawn(curve, i, place);
        }
        svg + "</svg>\n"
    }
}

fn drawn(curve: &Curve, i: usize, place: impl Fn(f64, f64) -> (f64, f64)) -> String {
    let Curve { name, colour, points } = curve;
    let places: Vec<(f64, f64)> = points.iter().map(|p| place(p.0, p.1)).collect();
    let path: Vec<String> = places.iter().map(|p| format!("{:.1},{:.1}", p.0, p.1)).collect();
    let mut svg =
        format!("<polyline fill=\"none\" stroke=\"{colour}\" stroke-width=\"2\" points=\"{}\"/>\n", path.join(" "));
    for (x, y) in places {
        svg += &format!("<circle cx=\"{x:.1}\" cy=\"{y:.1}\" r=\"3\" fill=\"{colour}\"/>\n");
    }
    let y = BOTTOM - 14.0 - 20.0 * i as f64;
    svg += &format!("<circle cx=\"{}\" cy=\"{}\" r=\"5\" fill=\"{colour}\"/>\n", RIGHT - 160.0, y - 4.0);
    svg + &text(RIGHT - 148.0, y, "start", name)
}

fn text(x: f64, y: f64, anchor: &str, words: &str) -> String {
    format!("<text x=\"{x:.1}\" y=\"{y:.1}\" text-anchor=\"{anchor}\">{words}</text>\n")
}

fn line(from: (f64, f64), to: (f64, f64)) -> String {
    format!("<path d=\"M{:.1} {:.1}L{:.1} {:.1}\" stroke=\"#ddd\"/>\n", from.0, from.1, to.0, to.1)
}

/// How far the marks of an axis lie apart, at 1, 2 or 5 times a power of ten, and where it ends.
fn axis(most: f64) -> (f64, f64) {
    let power = 10f64.powf((most / 8.0).log10().floor());
    let step = [1.0, 2.0, 5.0, 10.0].into_iter().map(|n| n * power).find(|step| step * 8.0 >= most).unwrap_or(most);
    (step, (most / step).ceil() * step)
}

fn marks(step: f64, most: f64) -> impl Iterator<Item = f64> {
    (0..=(most / step).round() as usize).map(move |i| i as f64 * step)
}

fn number(n: f64) -> String {
    let short = format!("{n:.3}");
    short.trim_end_matches('0').trim_end_matches('.').to_string()
}
