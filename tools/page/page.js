(function () {
  "use strict";
  var root = document.documentElement, ponds = [].slice.call(document.querySelectorAll("details.pond"));
  var field = document.getElementById("search"), found = document.getElementById("found");
  root.classList.add("script");
  function open() { // what a link leads to is unfolded
    var at = location.hash.length > 1 && document.getElementById(location.hash.slice(1));
    for (var e = at; e; e = e.parentElement) { if (e.tagName === "DETAILS") { e.open = true; e.hidden = false; } }
    if (at) { at.scrollIntoView(); }
  }
  function search() {
    var words = field.value.toLowerCase().trim(), shown = 0;
    ponds.forEach(function (pond) {
      pond.hidden = (pond.firstChild.textContent + " " + pond.dataset.key).toLowerCase().indexOf(words) < 0;
      shown += !pond.hidden;
    });
    found.textContent = words ? shown + " of " + ponds.length : "";
  }
  if (field) { field.addEventListener("input", search); }
  addEventListener("hashchange", open);
  document.addEventListener("click", function (event) { // the same link a second time changes no hash
    var link = event.target.closest("a[href^='#']");
    if (link && link.getAttribute("href") === location.hash) { open(); }
  });
  addEventListener("beforeprint", function () {
    [].forEach.call(document.querySelectorAll("details.printed"), function (d) { d.open = true; });
  });
  open();
})();
