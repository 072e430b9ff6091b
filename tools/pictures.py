"""The pictures of a script, which `replay` writes as PPM, and their PNG."""
from to_png import convert


def png_names(names):
    """The PNG of each picture: no picture of the script, and no other one's PNG, has the same name."""
    taken, chosen = set(names), {}
    for name in names:
        stem, number = name.removesuffix(".ppm"), 1
        while (png := f"{stem}.png" if number == 1 else f"{stem}-{number}.png") in taken:
            number += 1
        taken.add(png)
        chosen[name] = png
    return chosen


def convert_all(names):
    """Writes every PNG; a sentence on each, and whether it was written."""
    for name, png in png_names(names).items():
        try:
            convert(name, png)
            yield f"wrote {name}, and as PNG {png}", True
        except OSError as error:
            yield f"wrote {name}, but not as PNG: {error.filename}: {error.strerror}", False
        except ValueError as error:
            yield str(error), False
