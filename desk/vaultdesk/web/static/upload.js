// Shows how much of a form's files has been sent, and says before that where they are too large. Without this script the
// form is sent all the same, and the server says it.
"use strict";

function tooLarge(form, files) {
  const size = files.flatMap((it) => [...it.files]).reduce((sum, it) => sum + it.size, 0);
  files.forEach((it) => it.setCustomValidity(""));
  const last = files.find((it) => it.files.length);
  if (last && size > Number(form.dataset.most)) last.setCustomValidity(form.dataset.tooLarge);
}

function broke(form) {
  form.querySelector(".sent").hidden = true;
  form.querySelector("button").disabled = false;
  form.querySelector(".broken").hidden = false;
}

function show(form, request) {
  const next = request.getResponseHeader("Vault-Next");
  if (next) {
    location.assign(next);
    return;
  }
  // A refusal: its page comes in the place of this one's content.
  const page = new DOMParser().parseFromString(request.responseText, "text/html");
  const main = page.querySelector("main");
  if (!main) {
    broke(form);  // no page of this site, but a proxy's
    return;
  }
  document.title = page.title;
  document.querySelector("main").replaceWith(main);
  main.focus();
}

function send(form, event) {
  const sent = form.querySelector(".sent");
  const bar = sent.querySelector("progress");
  const said = sent.querySelector("output");
  const request = new XMLHttpRequest();
  const body = new FormData(form);
  event.preventDefault();
  form.querySelector("button").disabled = true;
  sent.hidden = false;
  form.querySelector(".broken").hidden = true;
  request.upload.addEventListener("progress", (it) => {
    bar.value = it.loaded / it.total;
    said.value = `${Math.floor(100 * it.loaded / it.total)} %`;
  });
  request.upload.addEventListener("load", () => bar.removeAttribute("value"));
  request.addEventListener("load", () => show(form, request));
  request.addEventListener("error", () => broke(form));
  request.open("POST", form.action);
  request.setRequestHeader("Vault-Sent-By", "script");
  request.send(body);
}

for (const form of document.querySelectorAll("form[data-most]")) {
  const files = [...form.querySelectorAll("input[type=file]")];
  files.forEach((it) => it.addEventListener("change", () => tooLarge(form, files)));
  form.addEventListener("submit", (event) => {
    if (files.some((it) => it.files.length)) send(form, event);
  });
}
