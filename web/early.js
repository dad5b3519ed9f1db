// Says why nothing comes where a browser is too old to read the other scripts. So this one has no word that such a
// browser lacks. page.js sets `ebpfIsThere` once it has been read.
window.ebpfIsThere = false;
window.onerror = function (message) {
    var said = document.getElementById('said');
    if (window.ebpfIsThere || !said) return;
    said.className = 'bad';
    said.textContent =
        'This browser is too old for the page, which needs Chromium 133, Firefox 134, or a later one. It says: ' + message;
};
