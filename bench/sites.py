"""Sites and plants that are measured."""

SITE_ALONE = """[gateway]
unit = 1
base = 40000
models = [1]
"""

PLANT_ALONE = """[[device]]
unit = 1
models = [1, 103]
wmax = 5000
available = [4000]
"""

GROUP = """[[tag]]
name = "{name}"
access = "in"
device = "inv{device}"
model = 103
point = "{point}"
type = "DINT"
exponent = 0
low = 0
high = 100000
default = 0
"""

POINTS = ["W", "VA", "VAr", "WH", "Hz", "A", "AphA", "AphB", "AphC", "PhVphA", "PhVphB", "PhVphC", "DCA", "DCV", "DCW", "PF"]


def large(devices=64, instructions=12_000):
    """A site of 64 devices with 16 tags each, and a program that reads each tag again and again."""
    site = [SITE_ALONE]
    names = []
    for device in range(devices):
        site.append(f'[[device]]\nname = "inv{device}"\nunit = {device + 1}\n')
    for device in range(devices):
        for point in POINTS:
            names.append(f"t{device}_{point.lower()}")
            site.append(GROUP.format(name=names[-1], device=device, point=point))
    declared = "".join(f"  {name} : DINT;\n" for name in names)
    lines = "".join(f"  LD {names[n % len(names)]}\n  ADD {names[(n * 7 + 1) % len(names)]}\n  MIN 100000\n  ST total\n"
                    for n in range(instructions // 8))
    text = f"PROGRAM large\nVAR_EXTERNAL\n{declared}END_VAR\nVAR\n  total : DINT (0..100000);\nEND_VAR\n{lines}END_PROGRAM\n"
    return "\n".join(site), text
