// The button that copies, and the box that stays shut. The pages do without them.
"use strict";

function copying(button) {
  const text = document.getElementById(button.dataset.from).textContent;
  button.hidden = !navigator.clipboard;
  button.addEventListener("click", () =>
    navigator.clipboard.writeText(text).then(
      () => (button.textContent = "Copied"),
      () => (button.textContent = "Not allowed"),
    ),
  );
}

// The box of the first page stands open until its reader has shut it once. A link from another page opens it too.
function remembering(box) {
  const name = "setup";
  const isAsked = location.hash.startsWith("#setup-");
  try {
    box.open = isAsked || localStorage.getItem(name) === null;
    box.addEventListener("toggle", () => box.open || localStorage.setItem(name, "shut"));
  } catch {
    // (a browser that keeps nothing: the box stays as it is)
    box.open = isAsked;
  }
  if (isAsked) {
    document.getElementById(location.hash.slice(1))?.scrollIntoView();
  }
}

// A link to a version that is not on the page of versions: it says so.
function missing(notice) {
  const name = location.hash.slice(1);
  notice.hidden = !/^v[0-9]/.test(name) || document.getElementById(name) !== null;
  if (!notice.hidden) {
    notice.textContent = `${name} is not on this page. The overview lists all versions that this shelf sees.`;
  }
}

document.querySelectorAll("#absent").forEach((it) => {
  missing(it);
  addEventListener("hashchange", () => missing(it));
});
document.querySelectorAll("details[data-opens]").forEach(remembering);
document.querySelectorAll("button.copy").forEach(copying);
