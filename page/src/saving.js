// Texts and pictures as files.

/** Gives a person a text as a file. */
export function saveText(text, name, type = 'text/plain') {
  const link = document.createElement('a');
  link.href = URL.createObjectURL(new Blob([text], { type }));
  link.download = name;
  link.click();
  setTimeout(() => URL.revokeObjectURL(link.href), 10000);
}

/** Gives a person the picture in a box as a file, in the colours that it has here. */
export function saveSvg(box, name) {
  const svg = box.querySelector('svg');
  if (!svg) return;
  const probe = document.createElement('span');
  document.body.append(probe);
  const plain = svg.outerHTML.replace(/var\(--[a-z0-9-]+\)/g, (text) => {
    probe.style.color = text;
    return getComputedStyle(probe).color;
  });
  probe.style.color = 'var(--card)';
  const ground = getComputedStyle(probe).color;
  probe.remove();
  const text = plain.replace('>', `><rect width="100%" height="100%" fill="${ground}"/>`);
  saveText(`<?xml version="1.0" encoding="UTF-8"?>\n${text}\n`, name, 'image/svg+xml');
}
