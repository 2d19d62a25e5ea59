"""Draws docs/hyphenation.png: a narrow justified paragraph in German and in Hungarian, without and with this library.

  python3 picture.py GERMAN HUNGARIAN PICTURE.png

GERMAN and HUNGARIAN are dictionaries: dictionary texts, or files `.dic` of LibreOffice. The picture in docs is by TeX's
patterns of German (de-1996) and by the hyph_hu_HU.dic of Debian's package hyphen-hu, whose breaks change letters.

ReportLab fills the lines and asks this library where words may be broken. Debian's packages python3-reportlab,
python3-pil, poppler-utils and fonts-liberation have all that is needed.
"""

import subprocess
import sys
import tempfile

from PIL import Image
from reportlab.lib.enums import TA_JUSTIFY
from reportlab.lib.styles import ParagraphStyle
from reportlab.pdfbase import pdfmetrics
from reportlab.pdfbase.ttfonts import TTFont
from reportlab.pdfgen.canvas import Canvas
from reportlab.platypus import Paragraph

from hyphenation.pyphen import Pyphen

FONTS = "/usr/share/fonts/truetype/liberation/Liberation"
TEXTS = {
    "German": (
        "In schmalen Spalten werden zusammengesetzte Hauptwörter zum Problem: Geschwindigkeit, Weihnachtsbeleuchtung "
        "und Krankenversicherung passen selten in den Rest einer Zeile. Ohne Trennungen entstehen Lücken, die sich zu "
        "hellen Bahnen zusammenschließen und beim Weiterlesen stören."
    ),
    "Hungarian": (
        "Keskeny hasábban az elválasztás nélkül kiegyenlített sorok szóközei kellemetlenül szétnyílnak. A magyarban az "
        "elválasztás olykor a betűket is megváltoztatja: a könnyebben, az asszonnyal és a hosszabbítás szavak "
        "rövidített kettős betűi a sorvégeken visszakapják teljes alakjukat."
    ),
}
# In points: a column, the space between two of them, and the margin of the picture.
COLUMN, GAP, MARGIN, HEAD = 118, 22, 18, 20
DOTS_PER_INCH = 144
SHADES = 16


def paragraph(text, dictionary):
    """A justified paragraph, whose words are broken by a dictionary, if one is given."""
    hyphenator = Pyphen(filename=dictionary).iterate if dictionary else None
    style = ParagraphStyle(
        "text", fontName="Serif", fontSize=10, leading=12.5, alignment=TA_JUSTIFY, hyphenationLang=hyphenator or ""
    )
    return Paragraph(text, style)


def draw(path, german, hungarian):
    """Writes the four columns as a PDF."""
    pdfmetrics.registerFont(TTFont("Serif", FONTS + "Serif-Regular.ttf"))
    pdfmetrics.registerFont(TTFont("Sans", FONTS + "Sans-Regular.ttf"))
    columns = []
    for (language, text), dictionary in zip(TEXTS.items(), (german, hungarian)):
        columns.append((f"{language}, without hyphenation", paragraph(text, None)))
        columns.append((f"{language}, with this library", paragraph(text, dictionary)))
    height = max(text.wrap(COLUMN, 1000)[1] for _, text in columns)
    width = 2 * MARGIN + len(columns) * COLUMN + (len(columns) - 1) * GAP
    page = width, height + HEAD + 2 * MARGIN
    canvas = Canvas(path, pagesize=page)
    # A card of its own, so that it can be read on a dark page too.
    canvas.setFillGray(1)
    canvas.setStrokeGray(0.8)
    canvas.rect(0.5, 0.5, page[0] - 1, page[1] - 1, fill=1)
    for number, (head, text) in enumerate(columns):
        left, top = MARGIN + number * (COLUMN + GAP), page[1] - MARGIN
        canvas.setFont("Sans", 8)
        canvas.setFillGray(0.4)
        canvas.drawString(left, top - 8, head)
        canvas.setFillGray(0)
        text.drawOn(canvas, left, top - HEAD - text.height)
    canvas.save()


def main(german, hungarian, picture):
    with tempfile.TemporaryDirectory() as folder:
        pdf = f"{folder}/page.pdf"
        draw(pdf, german, hungarian)
        subprocess.run(["pdftoppm", "-png", "-gray", "-singlefile", "-r", str(DOTS_PER_INCH), pdf, pdf], check=True)
        with Image.open(pdf + ".png") as drawn:
            drawn.convert("L").quantize(SHADES).save(picture, optimize=True)


if __name__ == "__main__":
    if len(sys.argv) != 4:
        sys.exit(__doc__)
    main(*sys.argv[1:])
