"""What a browser computes on each element of the page that is open."""
import json
from dataclasses import dataclass
from typing import Dict, List

FACTS = ("display", "position", "float", "font-family", "color")

CUSTOM = """
((names, facts) => [...document.querySelectorAll("*")].map(element => {
  const style = getComputedStyle(element);
  return [element.localName, names.map(name => style.getPropertyValue(name)), facts.map(name => style.getPropertyValue(name))];
}))(%s, %s)
"""

# Where an element has no box, what getComputedStyle gives is the computed value and not the one that layout used. So the
# ordinary properties, but for `display`, are read while the root has none. It gives 0px for a min-width or min-height of `auto`
# too, for the sake of old pages (CSS Sizing 3), so that these are read by computedStyleMap where they are 0px.
ORDINARY = """
(names => {
  const sheet = new CSSStyleSheet();
  sheet.replaceSync(":root { display: none !important }");
  document.adoptedStyleSheets = [sheet];
  const values = [...document.querySelectorAll("*")].map(element => {
    const style = getComputedStyle(element), map = element.computedStyleMap();
    const value = name => style.getPropertyValue(name);
    return names.map(name => name.startsWith("min-") && value(name) === "0px" ? map.get(name).toString() : value(name));
  });
  document.adoptedStyleSheets = [];
  return values;
})(%s)
"""


@dataclass
class Computed:
    """What the browser computes on one element."""

    tag: str
    values: Dict[str, str]
    facts: Dict[str, str]  # what tells why an element differs


def read_values(browser, custom: List[str], ordinary: List[str]):
    """What the browser computes of these names, on each element in tree order."""
    with_facts = browser.run(CUSTOM % (json.dumps(custom), json.dumps(FACTS)))
    plain = browser.run(ORDINARY % json.dumps(ordinary)) if ordinary else [[]] * len(with_facts)
    found = []
    for (tag, values, facts), others in zip(with_facts, plain):
        facts = dict(zip(FACTS, facts))
        values = {**dict(zip(custom, values)), **dict(zip(ordinary, others))}
        if "display" in values:
            values["display"] = facts["display"]
        found.append(Computed(tag, values, facts))
    return found
