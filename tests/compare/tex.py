"""What TeX itself writes, here where it is installed and kept in tests/tex, and DVItype's word on where all of it stands."""

import shutil
import subprocess

import dvi
from dvitype import NoWitness, hear, pixel_widths, table_of, true_widths
from kept import kept_testimonies
from made_up import place, unit_of
from published import ask_about, units_of
from tables import MOST_RECORDS

EVERY_RESOLUTION = (72, 99, 100, 150, 199, 200, 300, 600, 1200, 2400, 8000)
WITNESS_RESOLUTIONS = (200, 300, 600, 1200, 8000)  # DVItype's drift is document 01's from 200 on
FEW_WITNESS_RESOLUTIONS = (300, 1200)
OTHERS_RESOLUTIONS = (300,)
ALL_PAGES = 12  # of a longer file, the pages asked at every resolution are so many, spread over it; DVItype is asked about all

TEXT = " ".join(["The quick brown fox jumps over the lazy dog, and the train of 7:42 leaves from platform 9 -- AV To fi ffl."] * 6)
LOOP = r"\newcount\n \long\def\times#1#2{\n=0 \long\def\body{#2\advance\n by 1 \ifnum\n<#1 \expandafter\body\fi}\body}"
# A row of a timetable: each column's time is a number that grows from row to row.
TIMETABLE = LOOP + (
    r"\newcount\m \newcount\o \def\two#1{\ifnum#1<10 0\fi\number#1}"
    r"\def\time#1{\m=\n \multiply\m by 17 \advance\m by #1 \o=\m \divide\o by 60 \two\o:\multiply\o by -60 \advance\m by\o \two\m}"
    r"\def\stop{\ifcase\n Bonn\or K\"oln\or D\"usseldorf\or Duisburg\or Essen\else Halt \number\n\fi}"
    r"\def\row{\line{\vrule height8.5pt depth3.5pt\hbox to 9em{\ {\bf\stop}\dotfill}\vrule\hfil\time{3}\hfil\vrule\hfil\time{57}\hfil\vrule\hfil"
    r"{\it\time{120}}\hfil\vrule\hfil\ifodd\n$\star$\else--\fi\hfil\vrule}\hrule}"
)

PLAIN_SOURCES = {
    "text": TEXT + r" \par " + TEXT + r"\bye",
    "math": r"$$\sum_{i=0}^\infty {x^i\over i!}=e^x\quad\sqrt{1+\sqrt{1+\sqrt{1+x}}}$$ $a_1^2+\hat b\ne\overline{c+d}$\eject"
            r"$$\left(\matrix{1&2\cr 3&{4\over 5}\cr}\right)\,\int_0^1\!\!f\,dx\quad\root 3\of{x\over y}\quad\underbrace{a+\cdots+z}_{26}$$\bye",
    "rules": r"\vbox{\offinterlineskip\halign{\vrule\strut\ #\hfil\ &\vrule\ \hfil#\ \vrule\cr\noalign{\hrule}Bonn&07:42\cr"
             r"\noalign{\hrule}K\"oln&08:05\cr\noalign{\hrule}}}\hrule height2pt\vrule width3in height-1pt depth2pt\bye",
    "no-rules": r"a\vrule width0pt b\vrule height0pt c\vrule width-3pt d\vrule width5pt height-2pt depth1pt e\hrule height0pt\hrule width0pt"
                r"\hrule width-9pt\hrule height1sp f\vrule width1sp height1sp g\vrule width3sp h\bye",
    "bars": r"\def\b#1{\vrule width#1pt height6pt }\def\row#1{\hbox{7\b{.1}42\b{#1}8\b{.4}05\b{1.3}9\kern.3pt\b{#1}{\bf3}\b{.7}x\kern1pt"
            r"\b{.2}\b{.3}\b{.1}\kern-1pt\b{#1}y\b{.02}\b{.02}\b{.02}z}}\row{.17}\row{.5}\row1\row{1.9}\row{2.61}\row7\row{20}\row{72.27}\bye",
    # One font at two sizes, as a width table has it twice.
    "headings": r"\font\head=cmbx10 scaled\magstep1 \font\sub=cmr10 scaled\magstep1 \centerline{\head Bonn -- K\"oln -- Essen}\bigskip\leftline{\sub"
                r" Monday to Friday}07:42, {\bf 08:05}, {\it not on} 24~December\par\leftline{\sub Saturday {\head only}}08:11 \head 09:33\bye",
    "timetable": TIMETABLE + r"\nopagenumbers\offinterlineskip\hrule\times{16}{\row}\bye",
    "fonts": r"\def\f#1#2{{\font\x=#1 \x #2 abc AVAWA \char'012 \char127\par}}\f{cmr5}{five}\f{cmr7}{seven}\f{cmbx10}{bold}\f{cmti10}{slant}"
             r"\f{cmtt10}{type}\f{cmsy10}{ABC}\f{cmmi10}{math}\f{cmex10}{ab}\f{cmr10 at 17.3pt}{large}\f{cmr10 scaled 2986}{huge}"
             r"\f{cmr10 at 120pt}{W}\f{cmr5 at 1sp}{tiny}\bye",
    "sizes": LOOP + r"\times{60}{{\count1=\n \multiply\count1 by 71 \advance\count1 by 301 \font\x=cmr10 scaled \count1 \x a\number\n-To }}\bye",
    "sizes-65": LOOP + r"\times{65}{{\count1=\n \multiply\count1 by 71 \advance\count1 by 301 \font\x=cmr10 scaled \count1 \x a\number\n-To }}\bye",
    "specials": r"A\special{ps: gsave}B\special{}C\special{\number\maxdimen" + "x" * 300 + r"}\eject\special{only}\bye",
    "magnified": r"\magnification=\magstep3 " + TEXT + r"\vskip 3truein\hskip 1truecm x\bye",
    "small": r"\magnification=512 " + TEXT + r"$x^2$\bye",
    "great": r"\mag=32768 \hsize=1truein \vsize=2truein Train\eject A\vrule width 1truein B\bye",
    "odd": r"\mag=1237 " + TEXT + r"\par\font\x=cmti12 at 11truept\x " + TEXT + r"\bye",
    "least": r"\mag=1 Train\bye",
    "boxes": r"\def\n#1{\hbox{\raise1pt\vbox{\hbox{a}\kern-2pt\moveright3pt\hbox{b#1}}}}\n{\n{\n{\n{\n{\n{\n{\n{\n{deep}}}}}}}}}"
             r"\setbox1\hbox{}\hbox{\copy1\vbox{\vbox{\copy1}}}\accent18 e\'e\llap{left}\rlap{right}\bye",
    "deep": LOOP + r"\setbox1\hbox{x}\times{45}{\setbox1\hbox{\kern1pt\lower.3pt\vbox{\kern.1pt\box1}\kern-.7pt y}}\box1\bye",
    # TeX counts a level for a box before it drops the push of one with nothing in it to set. The boxes for trains that do not call are such,
    # one in another, deeper than all that is set, so the s in post is above the depth.
    "dropped-push": r"\def\none{\hbox{\hbox{\hbox{}}}}\def\stop#1#2{\line{#1\hfil\hbox{#2}}}\stop{Bonn}{07:42}\stop{K\"oln}{08:05}"
                    r"\stop{Essen}{\none}\stop{Hamm}{\vbox{\none}}\eject\stop{Bonn}{19:42}\stop{K\"oln}{\none 20:05}\bye",
    "too-deep": LOOP + r"\setbox1\hbox{x}\times{55}{\setbox1\hbox{\kern1pt\lower.3pt\vbox{\kern.1pt\box1}\kern-.7pt y}}\box1\bye",
    "range": r"a\eject\hbox to 0pt{b\kern\maxdimen c\kern\maxdimen d\kern1pt e\hss}\eject"
             r"\vbox to 0pt{\hbox{f}\kern-\maxdimen\hbox{g}\kern-\maxdimen\kern-99pt\hbox{h}\vss}\eject i\bye",
    "kerns": r"\def\k#1{a\kern#1b\kern-#1c\raise#1\hbox{d}\lower#1\hbox{e}\hskip-#1 f\vskip-#1}"
             r"\k{1pt}\k{1.6pt}\k{1.9pt}\k{2pt}\k{6pt}\k{6.7pt}\k{8pt}\k{8.1pt}\k{8.9pt}\k{9pt}\k{20pt}\k{3sp}\bye",
    "accents": r"\def\a#1{\'#1\`#1\^#1\"#1\~#1\=#1\.#1\u#1\v#1\H#1\t#1#1\c#1\d#1\b#1 }\a a\a e\a o\a u\a A\a E{\it\a a\a T}\'\i\"\j\bye",
    "pages": r"\def\p#1{#1\hfil\break\number\pageno\vfil\eject}\p a\p b{\bf\p c}{\it\p d}\p{\char200}\tracinglostchars0\p e\bye",
    "leaders": r"\line{Bonn\leaders\hbox to 1em{\hss.\hss}\hfil 7}\line{\cleaders\hrule\hfill x\xleaders\hbox{*}\hfill}"
               r"\vbox to 2in{\leaders\vbox to 11pt{\hbox{:}\vss}\vfil}\bye",
}
REFUSED = {"sizes-65": 7, "too-deep": 6}  # what document 01 does not take, for more fonts or more depth than it allows
LATEX_SOURCES = {
    "latex": r"\documentclass{article}\begin{document}\tableofcontents\section{One}" + TEXT + r"\begin{tabular}{|l|r|}\hline a&b\\\hline\end{tabular}"
             r"\footnote{note}\begin{itemize}\item x\item $\alpha$\end{itemize}\newpage\begin{picture}(40,40)\put(0,0){\line(1,2){20}}"
             r"\put(9,9){\circle{12}}\end{picture}\end{document}",
    "picture": r"\documentclass[12pt]{article}\begin{document}\setlength{\unitlength}{1.3mm}\begin{picture}(90,60)\thicklines"
               r"\multiput(0,0)(7.3,3.1){9}{\vector(2,1){5}}\put(30,30){\circle*{4}}\put(30,30){\oval(20,11)[tr]}\thinlines"
               r"\put(0,0){\framebox(80,50){x}}"
               r"\put(5,40){\dashbox{2}(10,9)[b]{dash}}\put(50,5){\line(-1,6){4}}\put(60,9){\line(3,-4){5}}\qbezier(0,0)(30,50)(60,0)"
               r"\put(70,20){\shortstack{a\\b\\c}}\end{picture}\end{document}",
    "encodings": r"\documentclass{article}\usepackage[T1]{fontenc}\usepackage{mathptmx}\begin{document}\textsc{Small} \textbf{\'Etat} \emph{\c{c}a} "
                 r"{\fontfamily{phv}\selectfont Helvetica} {\fontfamily{pcr}\selectfont Courier} \quotedblbase x\textquotedblleft\ $\int\alpha$ "
                 r"{\fontfamily{cmr}\selectfont\char200\char255 \Huge big \tiny tiny}\end{document}",
    "tables": r"\documentclass{article}\usepackage{longtable,array,amsmath,graphicx,color}\begin{document}\newcount\n"
              r"\def\rows{\advance\n by 1 \the\n&\textcolor{red}{7:\the\n}&\rotatebox{30}{x}&\the\n\\\hline}"
              r"\begin{longtable}{|r|>{\bfseries}l|c|p{3cm}|}\hline " + r"\rows " * 60 + r"\end{longtable}"
              r"\begin{align}a&=b+\tfrac12\\c&\xrightarrow[under]{over}d\end{align}\[\begin{pmatrix}1&2\\3&4\end{pmatrix}\]\end{document}",
}
LONG_PLAIN_SOURCES = {
    "book": LOOP + r"\times{250}{\number\n. " + TEXT + r" $x_{\number\n}^2$\par}\bye",
    "long-timetable": TIMETABLE + r"\offinterlineskip\hrule\times{1000}{\row}\bye",
}
for mag in (1000, 1095, 1200, 1440, 1728, 2074, 2488, 10_000, 100, 997):
    LONG_PLAIN_SOURCES[f"mag-{mag}"] = rf"\mag={mag} \hsize=5truein " + PLAIN_SOURCES["kerns"].replace(r"\bye", "") + TEXT + r"\bye"
LONG_LATEX_SOURCES = {
    "article": r"\documentclass[twocolumn]{article}\begin{document}" + (r"\section{Part}" + TEXT + r"\[\sum_{n=1}^\infty\frac1{n^2}=\frac{\pi^2}6\]" +
               r"\begin{quote}\small " + TEXT + r"\end{quote}") * 60 + r"\end{document}",
}


def typeset(folder, program, sources):
    """The DVI files that this program makes of the sources; those that it does not make (a package may not be installed) with a word."""
    folder.mkdir(parents=True, exist_ok=True)
    for name, text in sources.items():
        (folder / f"{name}.tex").write_text(text + "\n")
        # A comment in place of the date, so that the same source gives the same bytes.
        command = [program, "-interaction=batchmode", "-output-comment=tests/tex", f"{name}.tex"]
        subprocess.run(command, cwd=folder, stdin=subprocess.DEVNULL, capture_output=True, timeout=300, check=False)
        made = folder / f"{name}.dvi"
        if made.exists():
            yield name, made.read_bytes()
        else:
            print(f"skipped: {program} wrote no file for '{name}'")


def all_typeset(folder, long):
    """Everything that the installed TeX programs write."""
    for program, sources, more in (("tex", PLAIN_SOURCES, LONG_PLAIN_SOURCES), ("latex", LATEX_SOURCES, LONG_LATEX_SOURCES)):
        if shutil.which(program):
            yield from typeset(folder / program, program, {**sources, **more} if long else sources)
        else:
            print(f"skipped: what TeX itself writes, for no '{program}' is installed")


def ask_every_resolution(group, rng, data):
    """Pages at every resolution, with the fonts' own fix words: the escapements their pixel widths there, or anything."""
    commands, _ = dvi.commands_of(data)
    fonts, units, pages = dvi.fonts_of(commands), units_of(commands), dvi.page_count(commands)
    rows = true_widths(fonts)
    if len(rows) > MOST_RECORDS:
        rows = {key: rows[key] for key in rng.sample(sorted(rows), MOST_RECORDS)}
    file = group.keep(data)
    some = range(1, pages + 1) if pages <= ALL_PAGES else sorted(rng.sample(range(1, pages + 1), ALL_PAGES))
    for resolution in EVERY_RESOLUTION:
        near = pixel_widths(rows, unit_of(units, resolution))
        beside = {key: max(-32768, min(32767, width + rng.randrange(-4, 5))) for key, width in near.items()}
        wild = {key: rng.randrange(-32768, 32768) for key in near}
        for stated in (near, beside, wild):
            table = group.keep(table_of(rows, stated))
            group.lines += [place(file, table, resolution, number) for number in some]


def groups(gather, rng, folder, long):
    """Questions about what TeX writes in this folder, if one is given, and all that DVItype has said, here or where the kept files were made."""
    counts = [0, 0, 0]

    def witnessed(name, testimony):
        with gather(f"DVItype: {name}") as group:
            for at, count in enumerate(testimony.ask(group)):
                counts[at] += count
            counts[2] += 1

    kept = list(kept_testimonies())
    if not any(dvi.stated_depth(testimony.data) > testimony.volume[2] for _, testimony in kept):
        raise AssertionError("none of tests/tex states more depth than it reaches")
    for name, testimony in kept:
        witnessed(f"kept {name}", testimony)
    for name, data in all_typeset(folder, long) if folder else ():
        with gather(f"TeX's own: {name}") as group:
            ask_about(group, rng, data)
            ask_every_resolution(group, rng, data)
            if name in REFUSED:
                group.expect(b"check %s" % group.keep(data), [["refused", REFUSED[name], "at", None]])
        if name in REFUSED:
            continue
        if shutil.which("dvitype"):
            witnessed(name, hear(data, WITNESS_RESOLUTIONS if long else FEW_WITNESS_RESOLUTIONS))
        else:
            print(f"skipped: DVItype on '{name}', for no 'dvitype' is installed")
    print(f"DVItype: {counts[2]} files, h and v of {counts[0]} characters and rules, {counts[1]} numbers hh or vv", flush=True)


def witness_others(gather, lawful, others):
    """DVItype's word on files that others made, as far as their fonts are at hand: those that are known to keep the rules, and any others."""
    counts, reasons = [0, 0, 0], {}
    for path in lawful + others:
        try:
            testimony = hear(path.read_bytes(), OTHERS_RESOLUTIONS)
        except NoWitness as reason:
            reasons[str(reason)] = reasons.get(str(reason), 0) + 1
            continue
        with gather(f"DVItype: {path.name}") as group:
            for at, count in enumerate(testimony.ask(group, refusable=path not in lawful)):
                counts[at] += count
            counts[2] += 1
    print(f"DVItype: {counts[2]} published files, h and v of {counts[0]} characters and rules, {counts[1]} numbers hh or vv; not asked about:",
          ", ".join(f"{count} ({reason})" for reason, count in sorted(reasons.items())) or "none", flush=True)
