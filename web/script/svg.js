// Marks of SVG as texts. Every mark has its attributes in itself, so that what is on the page can be saved as a file.

const PALETTE = {
    levels: ['', '#fbd87f', '#f5aa4f', '#e5763a', '#bf4545', '#862f60', '#452063'],
    none: '#8894a1', ink: '#1f2933', quiet: '#4a5763', faint: '#cbd2d9', road: '#dde2e7', verge: '#f3f6ec',
    barrier: '#0f4c81', zone: '#a8430d', leader: '#7b8794', wrong: '#b3001b', reach: '#d6e4f5',
};
const SIZE = 10;
const DEFINITIONS = '<defs><pattern id="over" width="3" height="3" patternUnits="userSpaceOnUse" patternTransform="rotate(45)">' +
    '<rect width="3" height="3" fill="#ffffff"/><rect width="1.2" height="3" fill="#3e4c59"/></pattern></defs>';

function escaped(text) {
    return String(text).replace(/[&<>"']/g, (letter) => '&#' + letter.charCodeAt(0) + ';');
}

function shortNumber(number) {
    return String(Math.round(number * 10) / 10);
}

function svgText(x, y, words, options = {}) {
    const {size = SIZE, anchor = 'start', fill = PALETTE.ink, bold = false, upright = false} = options;
    const turn = upright ? ` transform="rotate(-90 ${shortNumber(x)} ${shortNumber(y)})"` : '';
    return `<text x="${shortNumber(x)}" y="${shortNumber(y)}" dy="0.35em" font-size="${size}" text-anchor="${anchor}" fill="${fill}"` +
        `${bold ? ' font-weight="bold"' : ''}${turn}>${escaped(words)}</text>`;
}

function svgRect(x1, y1, x2, y2, fill, more = '') {
    const [left, top] = [Math.min(x1, x2), Math.min(y1, y2)];
    return `<rect x="${shortNumber(left)}" y="${shortNumber(top)}" width="${shortNumber(Math.abs(x2 - x1))}" height="${shortNumber(Math.abs(y2 - y1))}" fill="${fill}"${more}/>`;
}

function svgLine(points, stroke, width, more = '') {
    const path = points.map(([x, y], i) => (i ? 'L' : 'M') + shortNumber(x) + ' ' + shortNumber(y)).join('');
    return `<path d="${path}" fill="none" stroke="${stroke}" stroke-width="${width}"${more}/>`;
}

// Many bars of one colour in one path.
function svgBars(bars, fill, more = '') {
    if (!bars.length) return '';
    const path = bars.map(([x1, y1, x2, y2]) => `M${shortNumber(x1)} ${shortNumber(y1)}H${shortNumber(x2)}V${shortNumber(y2)}H${shortNumber(x1)}Z`).join('');
    return `<path d="${path}" fill="${fill}"${more}/>`;
}
