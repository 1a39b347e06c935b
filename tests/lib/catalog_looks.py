"""What a page looks like, asked in a browser: texts that are cut off, their contrast, and where the key Tab leads."""

# the texts of a page that a person sees, each with its element
TEXTS = """function* texts() {
    document.querySelectorAll("details").forEach((it) => (it.open = true));
    const walker = document.createTreeWalker(document.body, NodeFilter.SHOW_TEXT);
    for (let node; (node = walker.nextNode()); ) {
        const it = node.parentElement;
        let isSeen = node.data.trim() && it.checkVisibility() && it.tagName !== "title";
        for (let up = it; up; up = up.parentElement) {
            isSeen = isSeen && getComputedStyle(up).clipPath === "none" && !up.matches(".skip");
        }
        if (isSeen) yield [node, it];
    }
}"""
# the texts that are outside of the window, or in a part that has to be scrolled sideways
CUT = f"""(() => {{ {TEXTS}
    const bad = [];
    for (const [node, it] of texts()) {{
        const range = document.createRange();
        range.selectNodeContents(node);
        const isOut = [...range.getClientRects()].some((box) => box.right > innerWidth + 0.5 || box.left < -0.5);
        let isHidden = false;
        for (let up = it; up && up !== document.documentElement; up = up.parentElement) {{
            const isInline = getComputedStyle(up).display.startsWith("inline");
            const isScrolled = getComputedStyle(up).overflowX !== "visible" && up.scrollWidth > up.clientWidth + 1;
            isHidden = isHidden || (!isInline && isScrolled);
        }}
        if (isOut || isHidden) bad.push(node.data.trim());
    }}
    return bad;
}})()"""
# the texts whose contrast with their ground is below that of WCAG 2.1, level AA, and how many texts there are
CONTRASTS = f"""(() => {{ {TEXTS}
    const parsed = (text) => {{
        const it = text.match(/[\\d.]+/g).map(Number);
        return it.length < 4 ? [...it, 1] : it;
    }};
    const linear = (it) => (it <= 0.04045 ? it / 12.92 : ((it + 0.055) / 1.055) ** 2.4);
    const light = ([r, g, b]) => 0.2126 * linear(r / 255) + 0.7152 * linear(g / 255) + 0.0722 * linear(b / 255);
    const over = (top, below) => [0, 1, 2].map((at) => top[at] * top[3] + below[at] * (1 - top[3])).concat(1);
    const ratio = (one, two) => (Math.max(light(one), light(two)) + 0.05) / (Math.min(light(one), light(two)) + 0.05);
    function ground(it) {{
        const box = it.closest("g.box");
        if (box) return parsed(getComputedStyle(box.querySelector("rect")).fill);
        const found = [];
        for (; it; it = it.parentElement) found.push(parsed(getComputedStyle(it).backgroundColor));
        return found.reverse().reduce((below, top) => over(top, below), [255, 255, 255, 1]);
    }}
    const bad = [];
    let count = 0;
    function compare(name, it, style) {{
        const colour = parsed(it.closest("g.box") ? style.fill : style.color);
        const found = ratio(over(colour, ground(it)), ground(it)), size = parseFloat(style.fontSize);
        const isLarge = size >= 24 || (size >= 18.66 && style.fontWeight >= 700);
        count += 1;
        if (found < (isLarge ? 3 : 4.5)) bad.push([name, found.toFixed(2)]);
    }}
    for (const [node, it] of texts()) compare(node.data.trim(), it, getComputedStyle(it));
    for (const [chosen, part] of [["input", "::placeholder"], ["td[data-is]", "::before"]]) {{
        for (const it of document.querySelectorAll(chosen)) compare(part, it, getComputedStyle(it, part));
    }}
    // the line around what has the focus, and around the box that one types into
    for (const it of document.querySelectorAll("a, input")) {{
        it.focus({{focusVisible: true}});
        const style = getComputedStyle(it), colours = [style.outlineColor];
        if (it.matches("input")) colours.push(style.borderTopColor);
        for (const colour of colours) if (ratio(parsed(colour), ground(it)) < 3) bad.push([it.outerHTML, colour]);
    }}
    return [bad, count];
}})()"""
# what a key leads to, in the order of the page: links, buttons, boxes, and tables that may be wider than the window
REACHED = """[...document.querySelectorAll("a[href], button, input, summary, [tabindex='0']")].filter((it) =>
    it.checkVisibility() && it.tabIndex >= 0)"""
FOCUSED = f"""(() => {{
    const it = document.activeElement, box = it.getBoundingClientRect(), style = getComputedStyle(it);
    const isSeen = style.outlineStyle !== "none" && parseFloat(style.outlineWidth) >= 2 || it.matches(".skip");
    const isThere = box.bottom > 0 && box.top < innerHeight && box.right > 0 && box.left < innerWidth && box.height > 0;
    return [({REACHED}).indexOf(it), isSeen, isThere];
}})()"""
