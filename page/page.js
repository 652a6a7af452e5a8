
// Ties a run of bytes to its row: both stand out where one of them is pointed at, and a click on a run goes to its row.
(function () {
  var on = '';
  function key(target) {
    var run = target.closest('[data-n]');
    if (run) return run.dataset.n;
    var row = target.closest('tr[id], a[id]');
    return row ? row.id.slice(1) : '';
  }
  function each(n, what) {
    if (!n) return;
    var row = document.getElementById('f' + n);
    if (row) row.classList[what]('on');
    document.querySelectorAll('[data-n="' + n + '"]').forEach(function (run) { run.classList[what]('on'); });
  }
  function point(event) {
    var n = event.target.closest ? key(event.target) : '';
    if (n === on) return;
    each(on, 'remove');
    each(on = n, 'add');
  }
  document.addEventListener('mouseover', point);
  document.addEventListener('focusin', point);
  document.addEventListener('click', function (event) {
    var run = event.target.closest('i[data-n]');
    if (run) location.hash = 'f' + run.dataset.n;
  });
})();
