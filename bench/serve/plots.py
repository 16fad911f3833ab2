"""Draws what bench/serve.sh measured, for a reader at a glance: an SVG a question, by gnuplot."""

import pathlib
import subprocess

COLOURS = {"ours": "#1b6ca8", "ssh-agent": "#c8553d"}
# file, title, label of the axis, unit, and the measurements with their labels
CLIENTS = [(f"a refusal, {count} clients", str(count)) for count in (1, 16, 100)]
LISTS = [(f"a list of {count} keys", str(count)) for count in (1, 100, 1000)]
KINDS = (("ed25519 256", "Ed25519"), ("rsa 2048", "RSA-2048"), ("ecdsa 256", "P-256"))
SIGNATURES = [(f"a signature of {kind}, 1 clients", label) for kind, label in KINDS]
MEMORY = [("memory with no keys", "0"), ("memory with 1000 keys", "1000")]
PLOTS = (
    ("refusals", "Processor time a refusal", "clients", "us", CLIENTS),
    ("lists", "Processor time a list", "keys", "us", LISTS),
    ("signatures", "Processor time a signature, helper included", "", "us", SIGNATURES),
    ("memory", "Resident memory", "keys", "kB", MEMORY),
)


def draw(folder, found):
    """Writes the plots of which all measurements are there."""
    folder = pathlib.Path(folder)
    folder.mkdir(exist_ok=True)
    for file, title, label, unit, rows in PLOTS:
        if any(what not in found for what, _ in rows):
            continue
        lines = [f'"{name}" ' + " ".join(f"{found[what][agent]:.6g}" for agent in COLOURS) for what, name in rows]
        data = "\n".join(lines)
        bars = ", ".join(
            f'$rows using {column}:xtic(1) title "{agent}" linecolor rgb "{colour}"'
            for column, (agent, colour) in enumerate(COLOURS.items(), 2)
        )
        scale = "set logscale y 10\n" if file == "lists" else ""
        script = f"""set terminal svg size 520,320 font "sans-serif,12" background "white"
set output "{folder / file}.svg"
$rows << end
{data}
end
set title "{title}"
set xlabel "{label}"
set ylabel "{unit}"
{scale}set yrange [{"1" if scale else "0"}:*]
set style data histogram
set style fill solid
set boxwidth 0.9
set grid ytics
set key top left
plot {bars}
"""
        subprocess.run(["gnuplot"], input=script, text=True, check=True)
