#!/usr/bin/env python3
"""Runs the cells of a notebook without Jupyter: run_notebook.py [--write] NOTEBOOK.

Each cell of Python runs in the folder of the notebook. Its output is the text and the HTML of its last expression, as
IPython shows it, but what it prints is no output. Without --write, the outputs have to be those in the file."""

import ast
import json
import os
import sys


def shown(source, names):
    """Runs a cell, and returns the output of its last expression, by kinds; nothing if there is none."""
    body = ast.parse(source).body
    last = body.pop() if body and isinstance(body[-1], ast.Expr) else None
    exec(compile(ast.Module(body, []), "cell", "exec"), names)  # pylint: disable=exec-used
    found = eval(compile(ast.Expression(last.value), "cell", "eval"),
                 names) if last else None  # pylint: disable=eval-used
    if found is None:
        return None
    html = found._repr_html_() if hasattr(found, "_repr_html_") else None  # pylint: disable=protected-access
    return {**({"text/html": html.splitlines(True)} if html else {}), "text/plain": repr(found).splitlines(True)}


def run(path):
    """Returns a notebook with the outputs that its cells have now."""
    with open(path, encoding="utf-8") as file:
        notebook = json.load(file)
    names, before = {"__name__": "__main__"}, os.getcwd()
    os.chdir(os.path.dirname(os.path.abspath(path)))
    try:
        cells = [cell for cell in notebook["cells"] if cell["cell_type"] == "code"]
        for count, cell in enumerate(cells, 1):
            data = shown("".join(cell["source"]), names)
            outputs = [{"output_type": "execute_result", "execution_count": count, "metadata": {}, "data": data}]
            cell.update(execution_count=count, outputs=outputs if data else [])
    finally:
        os.chdir(before)
    return notebook


def text_of(notebook):
    return json.dumps(notebook, indent=1, ensure_ascii=False, sort_keys=True) + "\n"


def main():
    is_writing, paths = sys.argv[1:2] == ["--write"], sys.argv[1 + (sys.argv[1:2] == ["--write"]):]
    if len(paths) != 1:
        sys.exit(__doc__)
    text = text_of(run(paths[0]))
    if is_writing:
        with open(paths[0], "w", encoding="utf-8") as file:
            file.write(text)
        return
    with open(paths[0], encoding="utf-8") as file:
        if file.read() != text:
            sys.exit(f"{paths[0]}: its outputs are others: run_notebook.py --write, and look at them")


if __name__ == "__main__":
    main()
