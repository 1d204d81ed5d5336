"""Sites on which tools/try-page tries the page: one as large as a site may be, and one whose names are hostile.

Each is a function of a folder, and gives the words of `serve` for a simulated plant there.
"""

from serve_plays import put

# the points of an inverter that are read: name, low, high and what it is
READ = (
    ("W", -1000, 16000, None), ("A", 0, 600, 60), ("AphA", 0, 200, 20), ("AphB", 0, 200, 20), ("AphC", 0, 200, 20), ("PhVphA", 0, 300, 231),
    ("PhVphB", 0, 300, 232), ("PhVphC", 0, 300, 230), ("Hz", 40, 60, 50), ("VA", 0, 16000, 5100), ("VAr", -16000, 16000, -120), ("TmpCab", -40, 120, 41),
    ("St", 0, 9, 4), ("DCV", 0, 1200, 702),
)
FACTORS = ("W_SF", "A_SF", "V_SF", "Hz_SF", "VA_SF", "VAr_SF", "Tmp_SF", "DCV_SF")
GATEWAY = """[gateway]
unit = 1
models = [1, 103, 123]
name = "{name}"
"""
TARGET = """
[[tag]]
name = "target"
access = "set"
model = 123
point = "WMaxLimPct"
type = "DINT"
exponent = 0
low = 0
high = 100
default = 83

[[served]]
model = 123
point = "WMaxLimPct_SF"
value = 0

[[served]]
model = 103
point = "W_SF"
value = 1
"""
# names that are text, whatever they look like
HOSTILE = (
    "<script>alert(1)</script>", "<img src=x onerror=alert(2)>\\\"'&amp;",
    "Wechselrichter in der Scheune hinter dem großen Teich des Müllermeisters Überlingen an der Straße nach Groß-Gerau, Zähler Nr. 00012345678901234567890",
    "javascript:alert(3)\\n\\u202Eevil", "x" * 300,
)
HOSTILE_NAME = "</title><script>document.body.innerHTML=1</script>"


def device(name, unit):
    return f'\n[[device]]\nname = "{name}"\nunit = {unit}\nrated = 5000\n'


def tag(name, access, of, model, point, low, high, kind="DINT", more=""):
    return (
        f'\n[[tag]]\nname = "{name}"\naccess = "{access}"\ndevice = "{of}"\nmodel = {model}\npoint = "{point}"\n'
        f'type = "{kind}"\nexponent = 0\nlow = {low}\nhigh = {high}\n{more}'
    )


def sum_of(names):
    return '\n[[served]]\nmodel = 103\npoint = "W"\nsum = [' + ", ".join(f'"{it}"' for it in names) + "]\n"


def unit_of(number, values, limit=0):
    """A simulated inverter."""
    raw = [("103", it, 0) for it in FACTORS] + [("103", point, value) for point, value in values] + [("123", "WMaxLimPct_SF", limit)]
    text = f"[[device]]\nunit = {number}\nmodels = [1, 103, 123]\nwmax = 5000\navailable = [4000, 4100, 3900]\n"
    return text + "".join(f'\n[[device.value]]\nmodel = {model}\npoint = "{point}"\nraw = {value}\n' for model, point, value in raw) + "\n"


def words_of(folder, name, site, program, plant):
    return [put(folder, f"{name}.toml", site), put(folder, f"{name}.il", program), "--plant", put(folder, f"{name}_plant.toml", plant)]


def largest(folder):
    """64 devices and 1,024 tags. One device is lost, one has no temperature, and one can't say its limit."""
    site, plant, uses, code = GATEWAY.format(name="Freifläche Süd mit sehr vielen Wechselrichtern"), "", [], ""
    for n in range(1, 65):
        of = f"WR {(n + 7) // 8:02}.{(n - 1) % 8 + 1}"
        values = [(point, value) for point, _, _, value in READ if value is not None and (n, point) != (34, "TmpCab")]
        site += device(of, n)
        plant += unit_of(n if n != 20 else 200, values, 3 if n == 42 else 0)
        # (the site may have 1,024 tags, of which one is the target)
        for point, low, high, _ in READ if n < 64 else READ[:-1]:
            site += tag(f"i{n:02}_{point.lower()}", "in", of, 103, point, low, high)
        site += tag(f"i{n:02}_lim", "out", of, 123, "WMaxLimPct", 0, 100) + tag(f"i{n:02}_ena", "out", of, 123, "WMaxLim_Ena", 0, 1, "BOOL")
        uses += [f"  i{n:02}_lim : DINT;\n  i{n:02}_ena : BOOL;\n  i{n:02}_w : DINT;\n"]
        code += f"  LD i{n:02}_w_OK\n  JMPCN s{n}\n  LD i{n:02}_w\n  MAX peak{n:02}\n  ST peak{n:02}\ns{n}:\n  LD target\n  ST i{n:02}_lim\n  LD TRUE\n  ST i{n:02}_ena\n"
    site += TARGET + sum_of(f"i{n:02}_w" for n in range(1, 65))
    peaks = "".join(f"  peak{n:02} : DINT (-1000..16000);\n" for n in range(1, 65))
    program = f"PROGRAM largest\nVAR_EXTERNAL\n  target : DINT;\n{''.join(uses)}END_VAR\nVAR\n{peaks}END_VAR\n{code}END_PROGRAM\n"
    return words_of(folder, "largest", site, program, plant)


def hostile(folder):
    """Names with marks, quotes and letters that turn a text around; a tag and variables called as parts of every object are."""
    site, plant, uses, code = GATEWAY.format(name=HOSTILE_NAME), "", "", ""
    for n, of in enumerate(HOSTILE):
        limit = "constructor" if n == 0 else f"constructor{n}"
        site += device(of, n + 1) + tag(f"w{n}", "in", of, 103, "W", -1000, 16000) + tag(limit, "out", of, 123, "WMaxLimPct", 0, 100)
        plant += unit_of(n + 1 if n != 1 else 99, [])
        uses += f"  w{n} : DINT;\n  {limit} : DINT;\n"
        code += f"  LD target\n  ST {limit}\n"
    site += TARGET + sum_of(["w0", "w1", "w2"])
    program = (
        "(* </pre><script>alert(4)</script> <!-- größer *)\nPROGRAM hostile\nVAR_EXTERNAL\n  target : DINT;\n" + uses
        + "END_VAR\nVAR\n  tostring, valueof, prototype : DINT (0..100);\nEND_VAR\n" + code
        + "  LD target\n  ST tostring\n  ST valueof\n  ST prototype\nEND_PROGRAM\n"
    )
    return words_of(folder, "hostile", site, program, plant)
