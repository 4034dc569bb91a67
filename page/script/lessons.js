/* The lessons of examples/course at a page: the broken program of each, as a deck with its cards, and the steps by
   which a visitor finds its mistake and mends it in core storage. Each names the line that loads its program. A
   language that has none here has those in English. */
const LESSON_TEXTS = {
  en: {
    name: 'Lesson {n}: {title}',
    steps: 'This program has a mistake; steps 3 to 5 mend it. Below, each line has its address and what it puts into '
      + 'core storage; the panel says MCW for MLC. A click on a place shows its address.\n1. If the machine isn\'t '
      + 'clear, press {afresh}. Press {feed}. Turn sense switch A on, if it isn\'t: it makes the program notice the '
      + 'last card. Press LOAD and RUN, and read the paper.\n2. {look}\n3. Press {afresh}, then {feed}, turn switch '
      + 'A on, and press LOAD. At the console send {run}: the program is loaded, and has not begun.\n4. {mend} DEPOSIT '
      + '0600 ~AB~C puts three characters into places 600 to 602: ~ sets a word mark on A and on C, and B loses any '
      + 'that was there. Every instruction begins with a word mark.\n5. Press RUN. {right} The paper is the proof: you '
      + 'mended core storage, not the cards, and feeding them again brings the mistake back.',
    fed: 'Lesson {n} is in the hopper. Turn sense switch A on, press LOAD, then RUN. The steps are below core storage.',
    lessons: [
      {title: 'three fields',
        look: 'A card has a name, a town and a year, and the town comes out wrong. A move begins at the last place of '
          + 'a field and stops at the first word mark to its left. The card is in places 1 to 80, word marks are '
          + 'underlined. Which field has none?',
        mend: 'Set that mark: a card brings no word marks, and takes none away. Type any letter after ~: the card is '
          + 'read over it.',
        right: 'The town is in print positions 24 to 35, which are places 224 to 235, and the year in 41 to 44.'},
      {title: 'the last card',
        look: 'Amounts are listed and added. Add them by hand: by which amount is the total too low? BLC leaves the '
          + 'loop at the last card. What is not done for that card?',
        mend: 'Which order should the two instructions in places 428 to 439 have?', right: 'The total is 14425.'},
      {title: 'edited amounts',
        look: 'The total lacks a digit. Its field ends at 489, and the control word that it is printed by ends at '
          + '500. How many digits has the one, and how many places for digits the other? In a control word each blank '
          + 'and the 0 take one digit; comma and point stay; & prints a blank; CR is printed only if the amount is '
          + 'negative. The last digit also carries the sign, so ? is a positive 0.',
        mend: 'Put a wider control word at 600, with as many blanks in front as digits are missing, and let the '
          + 'instruction at 463, L500233, name its last place.',
        right: 'The total is 13,339.00.'},
      {title: 'a table',
        look: 'The machine stops at the fourth card with a message: that is the mistake that you are to find. Prices '
          + 'are looked up with the index register in places 87 to 89: +X1 adds its number to an address. A letter in '
          + 'it stands for a digit and thousands, so D86 is 3486. The fourth search runs through all of core storage. '
          + 'What is in the register when a search begins? What sets it to 000, and how often?',
        mend: 'The loop has no room for one more instruction, so patch it. B418 at 500 goes back for the next card: '
          + 'lead it to 600, and put there what is missing, M545089, then B418.',
        right: 'There are five lines, and NO PRICE for the ladder alone.'},
      {title: 'a subroutine',
        look: 'The subroutine at 497 prints the total of a department. After the first the machine stops at 199, '
          + 'where no instruction is. A branch leaves the address of the return in the B register, H stores it, and '
          + '/ uses that register. In which order do they come?',
        mend: 'Put the three instructions at 497, /332 and / and H552, into the right order.',
        right: 'Each of the three departments has its total.'},
      {title: 'headings',
        look: 'The second heading is at the foot of the first form. F1 skips to the top of a form: where in the '
          + 'program is it, and how often is it carried out?',
        mend: 'Patch it. B468 at 456 calls the heading when a form is full: lead it to 600, and put there F1, then '
          + 'B468, then B423.',
        right: 'The second heading is in line 4 of its form.'},
      {title: 'sorting',
        look: 'Nothing is printed: the limit of the table, in places 597 to 599, is never found equal to the index '
          + 'register in 87 to 89. Look at the last character of each. Which operation puts a sign there?',
        mend: 'The instruction at 422 should only move the field. Its first character is its operation.',
        right: 'The six cards are in the order of their names.'},
      {title: 'a payroll',
        look: 'The room has to be opened with --fit multiply. The third total is nonsense. A product needs the '
          + 'places of both factors and one more. For the tax, seven digits times two, there are nine places from '
          + '757 on. Which field is to the left of them?',
        mend: 'Give that field another place: eight zeros at 900, named 907 by the instructions at 521, A724756, and '
          + 'at 627, E756258.',
        right: 'The third total is 387.23.'},
    ],
  },
  de: {
    name: 'Lektion {n}: {title}',
    steps: 'Dieses Programm hat einen Fehler; die Schritte 3 bis 5 beheben ihn. Unten hat jede Zeile ihre Adresse und '
      + 'was sie in den Kernspeicher bringt; das Bedienfeld sagt MCW statt MLC. Ein Klick auf einen Platz zeigt seine '
      + 'Adresse.\n1. Wenn die Maschine nicht leer ist, drücken Sie {afresh}. Drücken Sie {feed}. Schalter A an, wenn '
      + 'er es nicht ist: damit bemerkt das Programm die letzte Karte. Dann LOAD und RUN, und lesen Sie das Papier.\n'
      + '2. {look}\n3. Drücken Sie {afresh}, {feed}, Schalter A an, und LOAD. Schicken Sie an der Konsole {run}: das '
      + 'Programm ist geladen und hat noch nicht begonnen.\n4. {mend} DEPOSIT 0600 ~AB~C bringt drei Zeichen auf die '
      + 'Plätze 600 bis 602: ~ setzt eine Wortmarke bei A und bei C, und B verliert eine, die dort war. Jeder Befehl '
      + 'beginnt mit einer Wortmarke.\n5. Drücken Sie RUN. {right} Das Papier ist der Beweis: Sie haben den '
      + 'Kernspeicher berichtigt, nicht die Karten; wieder eingelegt, bringen sie den Fehler zurück.',
    fed: 'Lektion {n} ist im Magazin. Schalter A an, LOAD, dann RUN. Die Schritte sind unter dem Kernspeicher.',
    lessons: [
      {title: 'drei Felder',
        look: 'Eine Karte hat einen Namen, einen Ort und ein Jahr, und der Ort wird falsch gedruckt. Eine '
          + 'Übertragung beginnt am letzten Platz eines Feldes und hält an der ersten Wortmarke links davon. Die Karte '
          + 'ist auf den Plätzen 1 bis 80, Wortmarken sind unterstrichen. Welchem Feld fehlt sie?',
        mend: 'Setzen Sie diese Marke: eine Karte bringt keine Wortmarken und nimmt keine weg. Nach ~ kommt irgendein '
          + 'Buchstabe: die Karte wird darüber gelesen.',
        right: 'Der Ort ist in den Druckspalten 24 bis 35, das sind die Plätze 224 bis 235, das Jahr in 41 bis 44.'},
      {title: 'die letzte Karte',
        look: 'Beträge werden gedruckt und addiert. Addieren Sie von Hand: um welchen Betrag ist die Summe zu klein? '
          + 'BLC verlässt die Schleife bei der letzten Karte. Was geschieht mit dieser Karte nicht?',
        mend: 'In welcher Reihenfolge sollten die zwei Befehle auf den Plätzen 428 bis 439 sein?',
        right: 'Die Summe ist 14425.'},
      {title: 'aufbereitete Beträge',
        look: 'Der Summe fehlt eine Ziffer. Ihr Feld endet auf 489, und die Maske, mit der sie gedruckt wird, auf '
          + '500. Wie viele Ziffern hat das eine, und wie viele Plätze für Ziffern die andere? In einer Maske nehmen '
          + 'jedes Leerzeichen und die 0 eine Ziffer auf; Komma und Punkt bleiben; & druckt ein Leerzeichen; CR wird '
          + 'nur bei einem negativen Betrag gedruckt. Die letzte Ziffer trägt auch das Vorzeichen, so ist ? eine '
          + 'positive 0.',
        mend: 'Bringen Sie eine breitere Maske nach 600, vorne mit so vielen Leerzeichen mehr, wie Ziffern fehlen, und '
          + 'der Befehl auf 463, L500233, soll ihren letzten Platz nennen.',
        right: 'Die Summe ist 13,339.00.'},
      {title: 'eine Tabelle',
        look: 'Die Maschine hält bei der vierten Karte mit einer Meldung an: das ist der Fehler, den Sie suchen. '
          + 'Preise werden mit dem Indexregister auf den Plätzen 87 bis 89 gesucht: +X1 addiert dessen Zahl zu einer '
          + 'Adresse. Ein Buchstabe darin steht für eine Ziffer und Tausender, so ist D86 3486. Die vierte Suche läuft '
          + 'durch den ganzen Kernspeicher. Was ist im Register, wenn eine Suche beginnt? Was setzt es auf 000, und '
          + 'wie oft?',
        mend: 'In der Schleife ist kein Platz für noch einen Befehl, also flicken Sie sie. B418 auf 500 geht zur '
          + 'nächsten Karte zurück: führen Sie ihn nach 600, und dorthin kommt, was fehlt, M545089, dann B418.',
        right: 'Es sind fünf Zeilen, und nur die Leiter hat NO PRICE.'},
      {title: 'ein Unterprogramm',
        look: 'Das Unterprogramm auf 497 druckt die Summe einer Abteilung. Nach der ersten hält die Maschine auf '
          + '199, wo kein Befehl ist. Ein Sprung lässt die Adresse der Rückkehr im B-Register, H speichert sie, und '
          + '/ benützt dieses Register. In welcher Reihenfolge kommen sie?',
        mend: 'Bringen Sie die drei Befehle auf 497, /332 und / und H552, in die richtige Reihenfolge.',
        right: 'Jede der drei Abteilungen hat ihre Summe.'},
      {title: 'Überschriften',
        look: 'Die zweite Überschrift ist am Fuß des ersten Formulars. F1 springt zum Kopf eines Formulars: wo im '
          + 'Programm ist es, und wie oft wird es ausgeführt?',
        mend: 'Flicken Sie es. B468 auf 456 ruft die Überschrift, wenn ein Formular voll ist: führen Sie ihn nach '
          + '600, und dorthin kommt F1, dann B468, dann B423.',
        right: 'Die zweite Überschrift ist in Zeile 4 ihres Formulars.'},
      {title: 'Sortieren',
        look: 'Nichts wird gedruckt: die Grenze der Tabelle, auf den Plätzen 597 bis 599, ist dem Indexregister auf '
          + '87 bis 89 niemals gleich. Sehen Sie das letzte Zeichen von beiden an. Welche Operation bringt dort ein '
          + 'Vorzeichen hin?',
        mend: 'Der Befehl auf 422 soll das Feld nur übertragen. Sein erstes Zeichen ist die Operation.',
        right: 'Die sechs Karten sind in der Reihenfolge ihrer Namen.'},
      {title: 'eine Lohnliste',
        look: 'Der Raum muss mit --fit multiply eröffnet sein. Die dritte Summe ist Unsinn. Ein Produkt braucht die '
          + 'Plätze beider Faktoren und einen mehr. Für die Steuer, sieben Ziffern mal zwei, sind neun Plätze ab 757 '
          + 'da. Welches Feld ist links davon?',
        mend: 'Geben Sie diesem Feld einen anderen Platz: acht Nullen auf 900, die bei den Befehlen auf 521, '
          + 'A724756, und auf 627, E756258, den Namen 907 haben.',
        right: 'Die dritte Summe ist 387.23.'},
    ],
  },
};
/* After how many steps the deck of each has loaded itself. */
const LESSON_STEPS = [203, 203, 203, 221, 230, 221, 284, 266];

LESSON_STEPS.forEach((steps, at) => {
  const name = `lesson${at + 1}`;
  PROGRAMS.push({name, ...assembled(name), loads: `RUN ${steps}`, number: at + 1});
  for (const [language, {programs, feedKey, afreshKey}] of Object.entries(LANGUAGES)) {
    const texts = LESSON_TEXTS[language] || LESSON_TEXTS.en, lesson = texts.lessons[at];
    const about = filled(texts.steps, {...lesson, run: `RUN ${steps}`, feed: feedKey, afresh: afreshKey});
    programs[name] = {name: filled(texts.name, {...lesson, n: at + 1}), about,
      fed: filled(texts.fed, {n: at + 1})};
  }
});
