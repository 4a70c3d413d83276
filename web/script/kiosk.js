// A museum's screen (`#kiosk`, or `#kiosk=SECONDS`): once nobody has touched it for a minute it is as at first, and
// shows a call again. Nothing on it leads away, and no hand makes it larger or chooses its text.

const KIOSK_SECONDS = 60;
const LEAST_KIOSK_SECONDS = 4;
const MOST_KIOSK_SECONDS = 86400;

class Kiosk {
  constructor(office, seconds) {
    this.office = office;
    this.restsMs = 1000 * seconds;
    this.touchedAt = performance.now();
    for (const name of ['pointerdown', 'keydown']) {
      addEventListener(name, () => { this.touchedAt = performance.now(); }, true);
    }
    for (const link of document.querySelectorAll('a')) link.removeAttribute('href');
    for (const name of ['contextmenu', 'gesturestart', 'dragstart']) {
      addEventListener(name, (event) => event.preventDefault());
    }
    addEventListener('wheel', (event) => { if (event.ctrlKey) event.preventDefault(); }, { passive: false });
    setInterval(() => this.look(), 500);
  }

  look() {
    if (performance.now() - this.touchedAt < this.restsMs) return;
    this.touchedAt = performance.now();
    this.office.beginAgain();
  }
}

// What the address asks for beside a call: the looks `kiosk` and `embed`, and after how many seconds a kiosk rests.
function lookAsked(address) {
  const [look, seconds] = wordsOf(address).map((word) => word.split('='))
    .find(([name]) => name === 'kiosk' || name === 'embed') ?? [];
  const asked = Number(seconds) || KIOSK_SECONDS;
  return { look, seconds: Math.min(Math.max(asked, LEAST_KIOSK_SECONDS), MOST_KIOSK_SECONDS) };
}
