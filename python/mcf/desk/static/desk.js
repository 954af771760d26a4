// Sends clicks and forms to the desk, and puts the fragments that come back into their places. Nothing is computed here.
"use strict";
(() => {
  const body = document.body;
  const by = (id) => document.getElementById(id);
  let chosen = "";
  let polling = 0;

  // What the server has to know of this page to answer it.
  function page() {
    const growing = new FormData(by("growing"));
    return { page_link: chosen, page_map: by("map").dataset.map, page_x: growing.get("x"), page_times: growing.get("times") };
  }

  function say(text) {
    by("message").textContent = text;
  }

  // Sends fields, and applies what comes back; one line where it is refused.
  async function send(path, fields, post) {
    const words = new URLSearchParams({ ...page(), ...fields });
    let answer;
    try {
      answer = post ? await fetch(path, { method: "POST", body: words }) : await fetch(`${path}?${words}`);
    } catch {
      say("The desk does not answer: it has ended, or its machine is asleep. Edits are in its last line, or where --save says.");
      return false;
    }
    const text = await answer.text();
    if (answer.status === 202 || answer.status === 204) return true;
    if (!answer.ok) {
      say(text.trim().split("\n")[0]);
      return false;
    }
    const whole = answer.headers.get("Desk-Revision"), old = Number(body.dataset.revision);
    const now = Number(whole ?? answer.headers.get("Desk-Part"));
    if (now < old) return true;
    apply(text);
    if (now > old) {
      // A single part may be newer than the rest of the page, which is then asked for.
      if (whole === null) return poll(), true;
      body.dataset.revision = now;
      reorder();
    }
    return true;
  }

  // Puts fragments into the elements of their ids; the element that has the focus keeps it, and what is typed stays.
  function apply(text) {
    const found = new DOMParser().parseFromString(text, "text/html").body.children;
    for (const part of [...found]) {
      const place = by(part.id);
      if (!place) continue;
      if (part.dataset.map) place.dataset.map = part.dataset.map;
      if (place.innerHTML === part.innerHTML) continue;
      const active = place.contains(document.activeElement) ? document.activeElement : null;
      const typed = active?.matches("input[type=text], input:not([type])") && active.value !== active.defaultValue ? active.value : null;
      const open = [...place.querySelectorAll("details[open] input[id]")].map((input) => input.id);
      place.replaceChildren(...part.childNodes);
      for (const id of open) by(id)?.closest("details")?.setAttribute("open", "");
      if (!active?.id || !by(active.id)) continue;
      by(active.id).focus({ preventScroll: true });
      if (typed !== null) by(active.id).value = typed;
    }
    for (const row of document.querySelectorAll("#changes li")) {
      const button = by(`m${row.dataset.cell}`);
      if (!button) continue;
      button.setAttribute("class", row.dataset.class);
      button.setAttribute("aria-label", row.textContent);
      button.querySelector(".line").setAttribute("stroke-width", row.dataset.width);
      button.querySelector("title").textContent = row.textContent;
    }
    mark();
  }

  // Marks the chosen link on the map.
  function mark() {
    for (const button of document.querySelectorAll("svg [role=button].chosen")) button.classList.remove("chosen");
    if (chosen !== "") for (const button of document.querySelectorAll(`svg [data-link="${chosen}"]`)) button.classList.add("chosen");
  }

  // The list of links in its order of now.
  async function reorder() {
    const form = by("find");
    const answer = await fetch(`/links?${new URLSearchParams(new FormData(form))}`).catch(() => null);
    if (answer?.ok && Number(answer.headers.get("Desk-Part")) >= Number(body.dataset.revision)) apply(await answer.text());
  }

  async function choose(link) {
    chosen = link;
    if (await send("/link", {}, false)) {
      const title = by("link-title");
      title?.focus({ preventScroll: true });
      title?.scrollIntoView({ block: "nearest" });
    }
  }

  function act(element) {
    const { post, choose: link, ...fields } = element.dataset;
    say("");
    if (link !== undefined) choose(link);
    else if (post) send(post, fields, true);
    else if (element.matches("svg [role=button]")) choose(element.dataset.link);
  }

  document.addEventListener("click", (event) => {
    const element = event.target.closest("[data-post]:not(form), [data-choose], svg [role=button]");
    if (element) act(element);
  });

  // Links on the map are buttons, so Enter and the space bar press them.
  document.addEventListener("keydown", (event) => {
    const button = event.target.closest?.("svg [role=button]");
    if (button && (event.key === "Enter" || event.key === " ")) {
      event.preventDefault();
      act(button);
    }
  });

  document.addEventListener("submit", (event) => {
    event.preventDefault();
    const form = event.target, fields = Object.fromEntries(new FormData(form));
    say("");
    for (const input of form.querySelectorAll("input")) input.defaultValue = input.value;
    if (form.dataset.post) send(form.dataset.post, fields, true);
    else if (form.id === "find") reorder();
    else send(form.dataset.get, {}, false);
  });

  let typing = 0;
  for (const kind of ["input", "change"]) by("find").addEventListener(kind, () => {
    clearTimeout(typing);
    typing = setTimeout(reorder, 150);
  });

  // What other tabs do, and what is under way.
  async function poll() {
    clearTimeout(polling);
    if (!document.hidden) await send("/news", { seen: body.dataset.revision }, false).catch(() => {});
    polling = setTimeout(poll, by("stop") ? 500 : 2000);
  }
  document.addEventListener("visibilitychange", () => { if (!document.hidden) poll(); });
  poll();
})();
