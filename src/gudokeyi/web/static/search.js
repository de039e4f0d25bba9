// Search while somebody types, and choices that are kept when they are made. Without this file each page works too: a
// form is sent by its button.
"use strict";

// So long nothing is asked behind a key, in milliseconds.
const PAUSE = 200;

// Calls a function a moment after the last of several calls.
function afterPause(call) {
  let timer;
  return () => {
    clearTimeout(timer);
    timer = setTimeout(call, PAUSE);
  };
}

// The answer to an address; none where it is another page's, as that of the login once that is over.
async function answerOf(address) {
  const answer = await fetch(address);
  return answer.ok && new URL(answer.url).pathname === address.pathname ? answer : null;
}

// Animals are offered below a field.
function offer(input) {
  const list = document.getElementById(input.getAttribute("list"));
  input.addEventListener("input", afterPause(async () => {
    const words = input.value.trim();
    if (!words) return;
    const address = new URL(input.dataset.search, location.href);
    address.searchParams.set("words", words);
    const answer = await answerOf(address);
    if (!answer || input.value.trim() !== words) return;
    list.replaceChildren(...(await answer.json()).map((animal) => {
      const option = document.createElement("option");
      option.value = animal.id;
      const label = [animal.id, animal.name, animal.born, animal.why].filter(Boolean).join("  ");
      // a browser offers what has the typed text alone, also where it is written otherwise
      option.label = label.toLowerCase().includes(words.toLowerCase()) ? label : `${label}  (${words})`;
      return option;
    }));
  }));
}

// A part of the page shows what the form finds.
function showFound(form) {
  const part = form.dataset.live;
  let asked = "";
  const show = afterPause(async () => {
    const address = new URL(form.action);
    for (const [name, value] of new FormData(form)) if (value) address.searchParams.append(name, value);
    asked = address.href;
    const answer = await answerOf(address);
    if (!answer || asked !== address.href) return;
    const page = new DOMParser().parseFromString(await answer.text(), "text/html");
    document.getElementById(part).replaceChildren(...page.getElementById(part).childNodes);
    history.replaceState(null, "", address);
  });
  form.addEventListener("input", show);
}

// What is chosen in a form is kept when it is chosen, one choice behind the other.
function keepChoices(form) {
  let kept = Promise.resolve();
  form.addEventListener("change", () => {
    const body = new URLSearchParams(new FormData(form));
    kept = kept.then(() => fetch(form.dataset.keep, {method: "POST", body, keepalive: true})).catch(() => {});
  });
}

for (const input of document.querySelectorAll("input[data-search]")) offer(input);
for (const form of document.querySelectorAll("form[data-keep]")) keepChoices(form);
for (const form of document.querySelectorAll("form[data-live]")) showFound(form);
