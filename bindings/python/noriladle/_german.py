"""The German of the help and of option errors, by their English. Other texts are in tables/shop/de.json."""
from __future__ import annotations

from typing import Dict

TEXTS: Dict[str, str] = {
    # The form of a help, and the errors of argparse.
    "Usage": "Aufruf",
    "[OPTIONS]": "[OPTIONEN]",
    "Arguments": "Argumente",
    "Options": "Optionen",
    "Print help": "Diese Hilfe zeigen",
    " (did you mean {0}?)": " (gemeint ist wohl {0}?)",
    "{0}: {1}; see {0} --help": "{0}: {1}; Hilfe zeigt {0} --help",
    "argument %(argument_name)s: %(message)s": "Option %(argument_name)s: %(message)s",
    "unrecognized arguments: %s": "unbekannte Option: %s",
    "the following arguments are required: %s": "hier fehlt noch: %s",
    "expected one argument": "hier fehlt der Wert",
    "expected at least one argument": "hier fehlt mindestens ein Wert",
    "ignored explicit argument %r": "steht ohne Wert, nicht mit %r",
    "invalid choice: %(value)r (choose from %(choices)s)": "%(value)r gibt es nicht, nur %(choices)s",
    "invalid %(type)s value: %(value)r": "%(value)r ist keine ganze Zahl",
    # What several commands share.
    "The list; standard input if left out or -": "Die Liste; ohne sie oder mit - die Standardeingabe",
    "Column of the {0} or {1}, by its heading or number":
        "Spalte von {0} oder {1}, nach ihrer Überschrift oder Nummer",
    "Encoding of the list, if it cannot be found: {0}":
        "Kodierung der Liste, wenn sie nicht zu erkennen ist: {0}",
    "Reference year for years of two digits, 1951 to 2149 [default: this year]":
        "Bezugsjahr für zweistellige Jahre, 1951 bis 2149 [sonst: dieses Jahr]",
    "Accept all AIs of the GS1 General Specifications, or those of the profile [default: all] [possible values: all, profile]":
        "Alle Datenbezeichner (AI) der GS1-Spezifikation zulassen (all) oder nur die des Profils (profile) [sonst: all]",
    "{0!r} is no year from 1951 to 2149": "{0!r} ist kein Jahr von 1951 bis 2149",
    "{0!r} is none of {1}": "{0!r} gibt es nicht, nur {1}",
    "--column {0}: write one of {1}, = and a heading, as in --column name=Bezeichnung":
        "--column {0}: bitte eines von {1}, ein = und eine Überschrift schreiben, etwa --column name=Bezeichnung",
    "--column {0}: the {1} is already '{2}'": "--column {0}: {1} ist schon „{2}“",
    "--no-price and --column price do not go together: leave one out":
        "--no-price und --column price passen nicht zusammen: bitte eines weglassen",
    # labels
    "Make labels from a list: names, prices and barcodes on label stock":
        "Macht aus einer Liste Etiketten: Namen, Preise und Strichcodes auf Etikettenbögen oder -rollen",
    "File to write, or - for standard output [default: labels.pdf]":
        "Die Datei mit den Etiketten, oder - für die Standardausgabe [sonst: labels.pdf]",
    "Format of the file, if its name does not say it": "Format der Datei, wenn ihr Name es nicht sagt",
    "Label stock by its number, or by measures: 3x8:70x37 on A4, 57x32 on a roll [default: 3474]":
        "Etiketten nach ihrer Nummer oder ihren Maßen: 3x8:70x37 auf A4, 57x32 auf der Rolle [sonst: 3474]",
    "List the known numbers of stock, with their measures in mm": "Die bekannten Nummern von Etiketten zeigen, mit Maßen in mm",
    "First free label of a sheet that is partly used [default: 1]":
        "Erstes freies Etikett eines angebrochenen Bogens [sonst: 1]",
    "Move all labels right and down by this many mm [default: 0,0]":
        "Alle Etiketten um so viele mm nach rechts und unten schieben [sonst: 0,0]",
    "The printer's dots an inch: 203, 300 or 600 [default: 300; label printers 203]":
        "Punkte des Druckers je Zoll: 203, 300 oder 600 [sonst: 300; Etikettendrucker 203]",
    "Width of the narrowest bar [default: 0.33; ITF-14 and GS1-128 0.495]":
        "Breite des schmalsten Strichs [sonst: 0,33; ITF-14 und GS1-128 0,495]",
    "Height of the bars [default: the standard's, if there is room]":
        "Höhe der Striche [sonst: die der Norm, wenn Platz ist]",
    "What is largest on a label that has a price: price or bars [default: price]":
        "Was auf einem Etikett mit Preis am größten ist: price (Preis) oder bars (Striche) [sonst: price]",
    "Draw a bar above and below each ITF-14": "Über und unter jedem ITF-14 einen Balken zeichnen",
    "Turn the labels by 90 degrees on their stock": "Den Inhalt der Etiketten um 90 Grad drehen",
    "Sign to put behind prices without one, such as €": "Zeichen hinter Preisen, die keines haben, etwa €",
    "Make labels without a price": "Etiketten ohne Preis machen",
    "Print a page of the labels' edges, to lay over the stock": "Eine Seite mit den Rändern der Etiketten drucken, zum Auflegen",
    "labels beside each other on a roll are not turned: leave --turn out": "Etiketten nebeneinander auf einer Rolle werden nicht gedreht: bitte --turn weglassen",
    "Darkness that .zpl asks for, 0 to 30 [default: as the printer is set]":
        "Schwärzung, die .zpl verlangt, 0 bis 30 [sonst: wie am Drucker eingestellt]",
    "Inches a second that .zpl asks for, 1 to 14 [default: as the printer is set]":
        "Zoll je Sekunde, die .zpl verlangt, 1 bis 14 [sonst: wie am Drucker eingestellt]",
    "What .zpl says of the roll: gaps, marks or continuous [default: as the printer is set]":
        "Was .zpl von der Rolle sagt: gaps (Lücken), marks (Marken) oder continuous (endlos) [sonst: wie am Drucker eingestellt]",
    "--darkness, --speed and --media are for .zpl: leave them out":
        "--darkness, --speed und --media sind für .zpl: bitte weglassen",
    "Print the price of a unit, such as kg,l or 100g,100ml, by the column of the content":
        "Den Grundpreis drucken, etwa für kg,l oder 100g,100ml, aus der Spalte des Inhalts",
    "{0!r} is no unit, such as kg, 100g or l": "{0!r} ist keine Einheit wie kg, 100g oder l",
    "Print prices of zero, too": "Auch Preise von null drucken",
    "Leave out lines that have errors, and make the labels of the others":
        "Zeilen mit Fehlern weglassen und die Etiketten der anderen machen",
    "TrueType file for the texts [default: Liberation Sans, or what is installed]":
        "TrueType-Datei für die Texte [sonst: Liberation Sans, oder was installiert ist]",
    "TrueType file for names and prices": "TrueType-Datei für Namen und Preise",
    "{0!r} is no length in mm": "{0!r} ist keine Länge in mm",
    "{0!r} is not two lengths of at most 20 mm, as 0.5,-1":
        "{0!r} sind nicht zwei Längen von höchstens 20 mm, wie 0.5,-1",
    "{0}: the end of the name says no form: write .{1}, or --to FORM":
        "{0}: das Ende des Namens sagt kein Format: bitte .{1} schreiben, oder --to FORM",
    "a terminal shows no {0}: write a file, as in -o labels.{1}":
        "ein Terminal zeigt kein {0}: bitte in eine Datei schreiben, etwa mit -o labels.{1}",
    "{0}: there is no folder {1}": "{0}: den Ordner {1} gibt es nicht",
    "{0} pages are {0} files: write them, as in -o labels.{1}":
        "{0} Seiten sind {0} Dateien: bitte schreiben, etwa mit -o labels.{1}",
    "the first label is to be in one of the cells 1 to {0}, and not in {1}":
        "das erste Etikett kann an den Stellen 1 bis {0} liegen, nicht an {1}",
    "the list asks for more than {0} labels: split it": "die Liste verlangt mehr als {0} Etiketten: bitte aufteilen",
    "this is no TrueType font: {0}": "das ist keine TrueType-Schrift: {0}",
    "there is no stock {0!r}{1}: --stocks lists those that are known; else write its measures in mm, "
    "as 3x8:70x37 (a sheet of A4), 5x13:38.1x21.2+2.54+0 (with gaps) or 57x32 (a roll)":
        "die Etiketten {0!r} sind nicht bekannt{1}: --stocks zeigt die bekannten; sonst bitte die Maße in mm schreiben, "
        "etwa 3x8:70x37 (ein Bogen A4), 5x13:38.1x21.2+2.54+0 (mit Abständen) oder 57x32 (eine Rolle)",
    " or ": " oder ",
    "there is no page {0!r}: it is one of {1}": "die Seite {0!r} gibt es nicht, nur {1}",
    "the stock {0!r} has no labels of {1:g} to {2:g} mm": "{0!r} hat keine Etiketten von {1:g} bis {2:g} mm",
    "the labels of {0!r} are larger than their page of {1} x {2} mm":
        "die Etiketten von {0!r} sind größer als ihre Seite von {1} x {2} mm",
    """
LIST is a CSV file or a spreadsheet, .xlsx or .ods. Its headings say which column is gtin (or ean, upc) or gs1, name,
price, copies, kind (ean13, upca, ean8, upce, itf14 or gs1128), old price, price per kg, deposit, best before, batch and
line 1, line 2, .. in English, German, French, Spanish, Italian, Dutch or Polish; a column of numbers without such a
heading is found by its cells. If lines have errors, each is reported with what to do, nothing is written, and the status is 1; --leave-out makes the labels of the others. If
several columns may be the price, the command asks, and --column price=HEADING answers. The end of FILE's name says the
format: .pdf, .svg, .png, or .zpl, .epl, .tspl for a label printer. Print a PDF file at 100 %.

  $ noriladle labels prices.csv --stock L7160 -o labels.pdf
""": """
LIST ist eine CSV-Datei oder eine Tabelle, .xlsx oder .ods. Ihre Überschriften sagen auf Deutsch, Englisch, Französisch,
Spanisch, Italienisch, Niederländisch oder Polnisch, was eine Spalte ist: die Nummer (EAN, GTIN, UPC) oder GS1-Elemente
(gs1), Name, Preis, Anzahl, Art (ean13, upca, ean8, upce, itf14 oder gs1128), alter Preis, Preis pro kg, Pfand, MHD,
Chargennummer oder Zeile 1, Zeile 2 und so weiter. Eine Spalte von Nummern ohne solche Überschrift findet der Befehl an ihren Zellen. Haben Zeilen Fehler, so sagt er zu jeder,
was zu tun ist, schreibt nichts und endet mit Status 1; --leave-out macht die Etiketten der anderen. Können mehrere
Spalten der Preis sein, so fragt er, und --column price=ÜBERSCHRIFT antwortet. Das Ende von FILE sagt das Format: .pdf,
.svg, .png, oder .zpl, .epl, .tspl für einen Etikettendrucker. Eine PDF-Datei bitte mit 100 % drucken.

  $ noriladle labels preise.csv --stock L7160 -o etiketten.pdf
""",
    # check
    "Check a list of numbers, element strings and scanned texts":
        "Prüft eine Liste von Nummern, GS1-Elementen und gescannten Texten",
    "Write the list with its numbers corrected, as far as it is clear what they are":
        "Die Liste mit berichtigten Nummern schreiben, soweit klar ist, welche es sind",
    "File of the corrected list, or - for standard output": "Die Datei der berichtigten Liste, oder - für die Standardausgabe",
    "Print only the lines that are refused": "Nur die abgelehnten Zeilen zeigen",
    "Refuse what is a warning otherwise": "Ablehnen, was sonst eine Warnung ist",
    "Print the GS1 Digital Link of each text too, with this beginning": "Auch den GS1 Digital Link jedes Textes zeigen, mit diesem Anfang",
    "--link takes the beginning of a web address, as https://id.gs1.org": "--link braucht den Anfang einer Webadresse, etwa https://id.gs1.org",
    "Print a JSON object for each line": "Je Zeile ein JSON-Objekt schreiben",
    "--fix and -o FILE go together: write both, as in --fix -o fixed.csv":
        "--fix und -o FILE gehören zusammen: bitte beides schreiben, etwa --fix -o neu.csv",
    """
LIST is a CSV file with a heading or without, or has one text a line. A text is a GTIN, an element string as printed,
(01)09501101530003(17)261231, or with ^ for the separator, ^10AB^17261231, or what a scanner sends, ]C110AB. Prints for
each its line's number, the text, and what it says, or why it is refused, what to do, and the name of the article, with
tabs between. The last line is a sum, and the status is 1 if a line is refused. --fix writes the list with the numbers
that are clearly meant in place of ="4012345010008", 4.012345010008E+12, EAN: 4012345010008, an ISBN of ten digits, or a
number without its zeros in front.

A warning behind a line names elements that the standard does not let stand together, codes of no country or currency,
and numbers of no trade item: of a shop (02, 04, 2), of a coupon or a receipt (05, 980 to 984, 99), or zeros alone.
--strict refuses such a line. Behind the number of a book, of music or of a serial stands ISBN, ISMN or ISSN.

  $ noriladle check supplier.csv
  $ noriladle check supplier.csv --fix -o fixed.csv
  $ noriladle check supplier.csv --link https://id.gs1.org
""": """
LIST ist eine CSV-Datei oder eine Tabelle, mit Überschriften oder ohne, oder hat einen Text je Zeile. Ein Text ist eine
GTIN, GS1-Elemente, wie sie gedruckt sind, (01)09501101530003(17)261231, oder mit ^ als Trennzeichen, ^10AB^17261231,
oder was ein Scanner sendet, ]C110AB. Zu jedem stehen da, mit Tabulatoren dazwischen: die Nummer der Zeile, der Text,
und was er sagt, oder warum er abgelehnt ist, was zu tun ist, und der Name des Artikels. Die letzte Zeile ist eine Summe,
und der Status ist 1, wenn eine Zeile abgelehnt ist. --fix schreibt die Liste mit den Nummern, die klar gemeint sind, an
Stelle von ="4012345010008", 4.012345010008E+12, EAN: 4012345010008, einer ISBN mit zehn Stellen oder einer Nummer ohne
ihre Nullen davor.

Eine Warnung hinter einer Zeile nennt Elemente, die nach der Norm nicht zusammen stehen, Codes, die kein Land und keine
Währung haben, und Nummern, die keinen Artikel meinen: die eines Ladens (02, 04, 2), eines Coupons oder einer Quittung (05,
980 bis 984, 99) oder lauter Nullen. Mit --strict ist eine solche Zeile abgelehnt. Hinter der Nummer eines Buchs, von Noten
oder einer Zeitschrift steht ISBN, ISMN oder ISSN.

  $ noriladle check lieferant.csv
  $ noriladle check lieferant.csv --fix -o neu.csv
  $ noriladle check lieferant.csv --link https://id.gs1.org
""",
    # read
    "Read the barcodes of photographs, scans and PDF files": "Liest die Strichcodes von Fotos, Scans und PDF-Dateien",
    "JPEG, PNG, TIFF, PBM, PGM, PPM, BMP, GIF, WebP or PDF; - is standard input":
        "JPEG, PNG, TIFF, PBM, PGM, PPM, BMP, GIF, WebP oder PDF; - ist die Standardeingabe",
    "Print a JSON object for each barcode": "Je Strichcode ein JSON-Objekt schreiben",
    """
Prints a line for each barcode, with tabs between: the picture, the symbology identifier, the elements, and its place in
pixels from the left and upper edge: left, top, right and bottom. A file of several pages has the number of the page
behind its name; pdftoppm draws the pages of a PDF file with 300 pixels an inch. The status is 1 if a picture shows no
barcode that can be read, and 2 if it cannot be opened.

  $ noriladle read photo.jpg
""": """
Schreibt eine Zeile je Strichcode, mit Tabulatoren dazwischen: das Bild, die Art des Strichcodes als Kennung, die
Elemente, und seinen Platz in Pixeln vom linken und oberen Rand: links, oben, rechts und unten. Eine Datei mit mehreren
Seiten hat hinter ihrem Namen die Nummer der Seite; die Seiten einer PDF-Datei zeichnet pdftoppm mit 300 Pixeln je Zoll.
Der Status ist 1, wenn ein Bild keinen lesbaren Strichcode zeigt, und 2, wenn es sich nicht öffnen lässt.

  $ noriladle read foto.jpg
""",
}
