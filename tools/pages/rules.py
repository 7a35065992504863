"""The style rules of a sheet, flat: at-rules are decided, nesting and layers are noted."""
from dataclasses import dataclass, field, replace
from typing import List, Optional, Tuple

import tinycss2

from pages import media, selectors, supports
from pages.shorthands import WITH_VAR, expand

# At-rules that hold no declaration of an element.
SILENT = frozenset(("charset", "font-face", "page", "counter-style", "font-feature-values", "font-palette-values", "view-transition", "color-profile"))
# At-rules whose content is left out, with the reason.
NOT_READ = {
    "container": "the sizes of containers aren't known", "scope": "scopes aren't read", "starting-style": "transitions don't run",
    "keyframes": "animations don't run", "-webkit-keyframes": "animations don't run", "namespace": "namespaces aren't read",
    "position-try": "anchor positions aren't known", "function": "functions aren't called", "document": "no browser has it",
}


@dataclass
class Declared:
    """One declaration of an ordinary name that is known, or of a custom one; its value is None where it can't be told."""

    name: str
    value: Optional[str]
    important: bool
    line: int
    shorthand: str = ""  # the shorthand with var() that gives it, as `padding: var(--a)`


@dataclass
class StyleRule:
    """A rule whose declarations apply to what its selectors match."""

    selectors: list  # compiled
    declarations: List[Declared]
    scope: "Scope"
    line: int


@dataclass(frozen=True)
class Scope:
    """What holds for the rules at one place of a sheet."""

    file: str
    line: int = 1  # the line of the file on which the sheet begins
    author: bool = True
    layer: Tuple = ()
    parents: Optional[str] = None  # the selectors of the rule around, as text

    def line_of(self, node):
        """The line of the file on which a node of the sheet stands."""
        return self.line + node.source_line - 1


@dataclass
class Reader:
    """Reads sheets into style rules and registrations."""

    screen: media.Screen
    layers: object
    left_out: object
    load: object  # called with a URL, a scope and a node; gives the sheet's nodes and its scope, or None
    rules: List[StyleRule] = field(default_factory=list)
    registrations: List[str] = field(default_factory=list)
    depth: int = 0

    def read_sheet(self, nodes, scope):
        """Reads the nodes of a whole sheet: its imports stand before every rule but the statements of layers."""
        head = True
        for node in nodes:
            name = node.lower_at_keyword if node.type == "at-rule" else None
            head = head and (name in ("import", "charset") or name == "layer" and node.content is None)
            if name == "import" and head:
                self.read_import(node, scope)
            else:
                self.read([node], scope)

    def read(self, nodes, scope):
        """Reads the nodes of a list of rules."""
        for node in nodes:
            if node.type == "qualified-rule":
                self.read_style_rule(node, scope)
            elif node.type == "at-rule":
                self.read_at_rule(node, scope)
            elif node.type == "error":
                self.left_out.add(scope.file, scope.line_of(node), f"what isn't a rule ({node.message})")

    def read_style_rule(self, node, scope):
        """Reads a style rule, and those that are nested in it."""
        try:
            found, left = selectors.compiled(node.prelude, scope.parents)
        except selectors.BadSelector as error:
            self.left_out.add(scope.file, scope.line_of(node), f"a rule {error.args[0]}", error.args[0].split(",")[0])
            return
        for text, why in left:
            self.left_out.add(scope.file, scope.line_of(node), f"the selector {text} ({why} isn't known)", f"selector {why}")
        parents = ", ".join(selectors.written_out(part, scope.parents) for part in selectors.split_selectors(node.prelude))
        self.read_block(node.content, replace(scope, parents=parents), found, scope.line_of(node))

    def read_block(self, tokens, scope, found, line):
        """Reads the content of a style rule: its declarations in stretches, with the nested rules between them."""
        stretch = []
        for item in block_items(tokens):
            if item.type == "declaration":
                stretch += self.declared(item, scope)
                continue
            if stretch:
                self.rules.append(StyleRule(found, stretch, scope, line))
                stretch = []
            if item.type == "qualified-rule":
                self.read_style_rule(item, scope)
            elif item.type == "at-rule":
                self.read_at_rule(item, scope, found)
            else:
                self.left_out.add(scope.file, scope.line_of(item), f"what isn't a declaration ({item.message})")
        if stretch:
            self.rules.append(StyleRule(found, stretch, scope, line))

    def declared(self, node, scope):
        """The declarations that one stands for, shorthands expanded."""
        line = scope.line_of(node)
        if holds_error(node.value):
            self.left_out.add(scope.file, line, f"a declaration of {node.name} with a bad string, url or bracket, which no browser takes")
            return []
        longhands, why = expand(node)
        shorthand = f"{node.lower_name}: {tinycss2.serialize(node.value).strip()}" if why == WITH_VAR else ""
        if longhands is None:
            if scope.author:
                self.left_out.drop(node.lower_name)
            return []
        if why is not None and why != WITH_VAR:
            self.left_out.add(scope.file, line, why)
        return [Declared(name, value, node.important, line, shorthand) for name, value in longhands]

    def read_at_rule(self, node, scope, found=None):
        """Reads an at-rule; `found` are the selectors around where it is nested in a style rule."""
        name = node.lower_at_keyword
        if name == "media":
            self.read_where(media.matches(node.prelude, self.screen), node, scope, found)
        elif name == "supports":
            self.read_where(supports.supported(node.prelude), node, scope, found)
        elif name == "layer":
            self.read_layer(node, scope, found)
        elif name == "import":
            self.left_out.add(scope.file, scope.line_of(node), "an @import behind or inside of rules, which no browser reads")
        elif name == "property":
            self.registrations.append(f"@property{tinycss2.serialize(node.prelude)}{{{tinycss2.serialize(node.content or [])}}}")
        elif name not in SILENT:
            why = NOT_READ.get(name, "it isn't known")
            self.left_out.add(scope.file, scope.line_of(node), f"@{name} ({why})")

    def read_where(self, holds, node, scope, found):
        """Reads the content of a conditional rule where its condition holds."""
        if holds is None:
            self.left_out.add(scope.file, scope.line_of(node), f"@{node.at_keyword}{tinycss2.serialize(node.prelude).rstrip()} (its condition can't be told)")
        elif holds:
            self.read_content(node, scope, found)

    def read_content(self, node, scope, found):
        """Reads the block of an at-rule, in a style rule or outside of one."""
        if node.content is None:
            return
        if found is not None:
            self.read_block(node.content, scope, found, scope.line_of(node))
        else:
            self.read(tinycss2.parse_rule_list(node.content, skip_comments=True, skip_whitespace=True), scope)

    def read_layer(self, node, scope, found):
        """Reads a layer's rules, or notes the order of the layers that a statement names."""
        paths = [layer_path(part) for part in media.split_at_commas(significant(node.prelude))]
        if node.content is None:
            for path in paths:
                self.layers.meet(scope.layer + path)
            return
        path = paths[0] or (self.layers.name_unnamed(),)
        self.read_content(node, replace(scope, layer=self.layers.meet(scope.layer + path)), found)

    def read_import(self, node, scope):
        """Reads the sheet that an import names, where its conditions hold."""
        tokens = significant(node.prelude)
        url = imported_url(tokens)
        rest, layer, holds = import_conditions(tokens[1:], self.layers)
        holds = media.all_of([holds, media.matches(rest, self.screen)])
        if layer is not None:
            scope = replace(scope, layer=self.layers.meet(scope.layer + layer))
        if url is None or holds is None or self.depth > 20:
            self.left_out.add(scope.file, scope.line_of(node), f"@import{tinycss2.serialize(node.prelude)}")
        elif holds:
            loaded = self.load(url, scope, scope.line_of(node))
            if loaded is not None:
                self.depth += 1
                self.read_sheet(*loaded)
                self.depth -= 1


def holds_error(tokens):
    """Whether a token that no value may hold stands in the tokens, at any depth."""
    return any(token.type == "error" and not token.kind.startswith("eof") or
               token.type != "error" and holds_error(getattr(token, "arguments", None) or getattr(token, "content", None) or ())
               for token in tokens)


def significant(tokens):
    """The tokens without whitespace and comments."""
    return [token for token in tokens if token.type not in ("whitespace", "comment")]


def layer_path(tokens):
    """The names of a layer, as (a, b) for a.b."""
    return tuple(token.value for token in tokens if token.type == "ident")


def imported_url(tokens):
    """The URL of an import, None where there is none."""
    if not tokens:
        return None
    first = tokens[0]
    if first.type in ("string", "url"):
        return first.value
    if first.type == "function" and first.lower_name == "url":
        return next((token.value for token in first.arguments if token.type == "string"), None)
    return None


def import_conditions(tokens, layers):
    """What stands behind an import's URL: its media queries, its layer (None without one), and whether its supports() holds."""
    layer, holds = None, True
    if tokens and tokens[0].type == "ident" and tokens[0].lower_value == "layer":
        layer, tokens = (layers.name_unnamed(),), tokens[1:]
    elif tokens and tokens[0].type == "function" and tokens[0].lower_name == "layer":
        layer, tokens = layer_path(tokens[0].arguments), tokens[1:]
    if tokens and tokens[0].type == "function" and tokens[0].lower_name == "supports":
        condition = tokens[0].arguments
        inner = significant(condition)
        plain = len(inner) > 1 and inner[0].type == "ident" and inner[1] == ":"
        holds = True if plain else supports.supported(condition)
        tokens = tokens[1:]
    return tokens, layer, holds


def block_items(tokens):
    """The items of a block by CSS Syntax: declarations, at-rules, and nested rules, which tinycss2 doesn't read by itself."""
    place = 0
    while place < len(tokens):
        token = tokens[place]
        if token.type in ("whitespace", "comment") or token == ";":
            place += 1
        elif token.type == "at-keyword":
            end = first_place(tokens, place, lambda one: one == ";" or one.type == "{} block") + 1
            yield tinycss2.parse_one_rule(tokens[place:end])
            place = end
        else:
            item, place = declaration_or_rule(tokens, place)
            yield item


def declaration_or_rule(tokens, place):
    """The declaration that begins at a place, else the nested rule, and the place behind it."""
    end = first_place(tokens, place, lambda one: one == ";")
    item = tinycss2.parse_one_declaration(tokens[place:end])
    if item.type == "declaration" and (item.name.startswith("--") or all(token.type != "{} block" for token in item.value)):
        return item, end + 1
    block = first_place(tokens, place, lambda one: one.type == "{} block")
    if block < end:
        return tinycss2.parse_one_rule(tokens[place:block + 1]), block + 1
    return item, end + 1


def first_place(tokens, place, test):
    """The first place from `place` on whose token passes the test, or the end."""
    while place < len(tokens) and not test(tokens[place]):
        place += 1
    return place
