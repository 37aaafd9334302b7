// Draws what the table beside each chart has. The figures are the table's; nothing is worked out here.
"use strict";

const COLOURS = ["#3d6f9e", "#c9803a", "#5f9470", "#a5588a", "#8a7d3b", "#6f6bb0", "#b85c54", "#4a9c9c"];
const INK = "#7b838c";
const GRID = "rgba(123, 131, 140, 0.22)";
// The height of a row, and of one where there are many.
const [ROW, SLIM, MANY] = [30, 20, 20];

function grouped(text) {
    const [whole, ...rest] = String(text).split(".");
    return [whole.replace(/(?<=\d)(?=(\d{3})+$)/g, "\u202f").replace("-", "\u2212"), ...rest].join(".");
}

function series(chart) {
    return (it, place) => ({
        label: it.name,
        // where nothing was sold there is no figure
        data: it.figures.map((figure) => Number(figure ?? 0)),
        backgroundColor: COLOURS[place % COLOURS.length],
        borderColor: COLOURS[place % COLOURS.length],
        borderWidth: chart.kind === "line" ? 2 : 0,
        borderRadius: 2,
        maxBarThickness: 22,
        pointRadius: 3,
    });
}

function options(chart) {
    const isLine = chart.kind === "line";
    const figures = { beginAtZero: true, grid: { color: GRID, drawBorder: false }, ticks: { maxTicksLimit: 6, callback: (value) => grouped(value) } };
    const labels = { grid: { display: false, drawBorder: false }, ticks: { autoSkip: isLine } };
    return {
        indexAxis: isLine ? "x" : "y",
        maintainAspectRatio: false,
        animation: false,
        interaction: { mode: "index", axis: isLine ? "x" : "y", intersect: false },
        scales: isLine ? { x: labels, y: figures } : { x: figures, y: labels },
        plugins: {
            legend: { display: chart.series.length > 1, position: "top", align: "start", labels: { boxWidth: 10, boxHeight: 10 } },
            tooltip: { callbacks: { label: (it) => ` ${it.dataset.label}: ${grouped(it.raw.toFixed(chart.decimals))}` } },
        },
    };
}

Chart.defaults.color = INK;
Chart.defaults.font.family = getComputedStyle(document.body).fontFamily;
Chart.defaults.font.size = 13;

for (const canvas of document.querySelectorAll("canvas[data-chart]")) {
    const chart = JSON.parse(canvas.dataset.chart);
    const bars = chart.labels.length * Math.max(1, chart.series.length * 0.7);
    canvas.parentElement.style.height = `${chart.kind === "line" ? 320 : 60 + bars * (bars > MANY ? SLIM : ROW)}px`;
    canvas.chart = new Chart(canvas, { type: chart.kind, data: { labels: chart.labels, datasets: chart.series.map(series(chart)) }, options: options(chart) });
}
