"""What the page shows, as scripts for the browser."""

LISTED = "return [...document.querySelectorAll('#groups .title')].some((it) => it.textContent === arguments[0])"
SAYS = "return document.getElementById(arguments[0]).innerText.includes(arguments[1])"
IS = "return document.body.dataset.service === arguments[0]"
RING = """return [...document.querySelectorAll('#ring .member')].map((it) =>
    [it.querySelector('title').textContent, Boolean(it.querySelector('circle.knows')), it.matches('.leading')])"""
# How many crowns the ring has, and how many squares of broken lines, each of a member that has not heard.
SHAPES = "return ['.crown', '.waits'].map((it) => document.querySelectorAll(`#ring ${it}`).length)"
# Whether each line of the table of members has the time at which the member came to know the leader.
HEARD = r"""return [...document.querySelectorAll('#members tr')].map((it) =>
    /^\d\d:\d\d:\d\d$/.test(it.querySelector('time')?.textContent ?? ''))"""
CROWNED = "return document.querySelector('#ring .leading title')?.textContent.startsWith(arguments[0])"
LIST = "return document.body.dataset.view === 'list'"
MISSING = "return !document.getElementById('missing').hidden"
THERE = "return !document.getElementById('parts').hidden"
NAMED = "return document.getElementById('name').textContent === arguments[0]"
IN_RING = "return document.getElementById('ring').textContent.includes(arguments[0])"
# How the service is, and the role by which a screen reader hears of it.
STATUS = "const it = document.getElementById('service'); return [it.getAttribute('role'), it.textContent]"
# The texts for empty lists that are seen.
NONE = """return [...document.querySelectorAll('.none')].filter((it) => it.checkVisibility())
    .map((it) => it.textContent)"""
# From now on the page hears of all groups but this one in the list.
LEAVE_OUT = """document.missing = arguments[0];
    document.fetch ??= window.fetch;
    window.fetch = async (path, options) => {
        const answer = await document.fetch.call(window, path, options);
        if (path !== 'v1/groups') return answer;
        const said = await answer.json();
        return new Response(JSON.stringify({ ...said, groups: said.groups.filter((it) => it !== document.missing) }));
    };"""
FOCUS = """const it = document.activeElement, style = getComputedStyle(it);
    return [it.getAttribute('href') ?? it.id, style.outlineStyle !== 'none' && parseFloat(style.outlineWidth) >= 2]"""
WIDER = """const is_wide = (it) => it.checkVisibility() && it.getBoundingClientRect().right > innerWidth + 1;
    const all = [...document.body.querySelectorAll('*')].filter((it) => is_wide(it) && !it.closest('.skip, #picture'));
    return [document.documentElement.scrollWidth, ...all.map((it) => it.tagName)]"""

# Whether the page has this width, and is light or dark.
LOOKS_SO = """return innerWidth === arguments[0]
    && matchMedia(`(prefers-color-scheme: ${arguments[1]})`).matches"""
HIDDEN = "return document.getElementById(arguments[0]).hidden"
ELECTION = "document.getElementById('election').open = arguments[0]"
# A picture is there, and says of which term it is.
DRAWN = """const it = document.getElementById('picture');
    return it.checkVisibility() && it.complete && it.naturalWidth > 0 && it.alt.includes(arguments[0])"""
# Whether the box of a picture is within the window, whether it scrolls, and its ground.
CHART = """const it = document.getElementById('chart');
    const within = it.getBoundingClientRect().right < innerWidth;
    return [within, it.scrollWidth > it.clientWidth, getComputedStyle(it).backgroundColor]"""

# The links to other addresses that are seen.
LINKS = """return [...document.querySelectorAll('#others a')].filter((it) => it.checkVisibility())
    .map((it) => [it.textContent, it.getAttribute('href')])"""
# How many elements there are next to the links, each of which has a line of its own.
STRANGE = "return document.querySelectorAll('#others *').length - 2 - 2 * document.querySelectorAll('#others a').length"
AT = "return location.host === arguments[0] && document.readyState === 'complete'"

# How light a color is, how two colors differ, and what a text stands on.
LIGHT = """
    const parts = (color) => color.match(/[0-9.]+/g).map(Number);
    const light = (color) => parts(color).slice(0, 3).map((it) => it / 255)
        .map((it) => it <= 0.04045 ? it / 12.92 : ((it + 0.055) / 1.055) ** 2.4)
        .reduce((sum, it, place) => sum + it * [0.2126, 0.7152, 0.0722][place], 0);
    const contrast = (one, other) =>
        (Math.max(light(one), light(other)) + 0.05) / (Math.min(light(one), light(other)) + 0.05);
    const ground = (it) => {
        for (; it; it = it.parentElement) {
            const color = getComputedStyle(it).backgroundColor;
            if (parts(color)[3] !== 0) return color;
        }
        return 'rgb(255, 255, 255)';
    };"""
GROUND = f"{LIGHT} return light(ground(document.body));"
# Each text whose contrast with the ground is less than 4.5 to 1. In the ring, a name upon a disc stands on its color.
PALE = LIGHT + """
    const fill = (it) => getComputedStyle(it).fill;
    const isNamed = (it) => it.matches('#ring text');
    const ink = (it) => isNamed(it) ? fill(it) : getComputedStyle(it).color;
    const below = (it) => it.matches('#ring .upon') ? fill(it.parentElement.querySelector('.knows')) : ground(it);
    const pale = [];
    for (const it of document.body.querySelectorAll('*')) {
        const own = [...it.childNodes].some((node) => node.nodeType === 3 && node.data.trim());
        const isSeen = it.checkVisibility() && (isNamed(it) || !it.closest('svg')) && !it.closest('.skip, noscript');
        if (!own || !isSeen) continue;
        const found = contrast(ink(it), below(it));
        if (found < 4.5) pale.push(`${it.textContent.trim()} ${found.toFixed(2)}`);
    }
    return pale;"""
# Each disc, square and crown of the ring whose contrast with the ground is less than 3 to 1. Without colours these
# shapes say who knows the leader, and who leads.
FAINT = LIGHT + """
    const ink = (it) => getComputedStyle(it)[it.matches('.knows') ? 'fill' : 'stroke'];
    const shapes = document.querySelectorAll('#ring .knows, #ring .waits, #ring .crown');
    return [...shapes].filter((it) => it.checkVisibility()).map((it) => [it.getAttribute('class'), contrast(ink(it), ground(it))])
        .filter(([, found]) => !(found >= 3)).map(([name, found]) => `${name} ${found.toFixed(2)}`);"""
