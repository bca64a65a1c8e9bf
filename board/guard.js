// Watches over the start of the page, apart from its modules: where a piece of it can't be read, it says so and begins again.
(() => {
  const FIRST_LOOK = 8000;
  const AGAIN = 5000;
  let failed = false;
  const hasStarted = () => document.documentElement.dataset.started !== undefined;
  addEventListener("error", () => { failed = true; }, true);
  function look() {
    if (hasStarted()) return;
    document.getElementById("trouble").textContent = failed ? "A piece of this page could not be read. It begins again."
      : "This page is still being read.";
    setTimeout(failed ? beginAgain : look, AGAIN);
  }
  function beginAgain() {
    if (!hasStarted()) location.reload();
  }
  setTimeout(look, FIRST_LOOK);
})();
