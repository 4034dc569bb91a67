/* The languages of the page, each by its tag. A language has all texts for visitors; {name} is replaced by a value. A
   text that counts has a form for each category of Intl.PluralRules that it needs, and `many` for the others. */
const LANGUAGES = {};
let TEXTS;

/* The language that the fragment or the browser asks for: the whole tag, or else its first part. */
function languageWanted() {
  const asked = [FRAGMENT.get('lang'), ...navigator.languages].filter(Boolean), known = Object.keys(LANGUAGES);
  const first = tag => tag.split('-')[0];
  for (const wanted of asked) {
    const found = known.find(tag => tag === wanted) || known.find(tag => first(tag) === first(wanted));
    if (found) return found;
  }
  return 'en';
}
function chooseLanguage(name) {
  TEXTS = LANGUAGES[name];
  putTexts();
  drawAnew();
}
