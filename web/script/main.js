// Starts the page; what tests need of it is under one name.

async function begin() {
    const engine = await engineOf(byId('module').textContent.trim());
    page = new Page(engine);
    page.start();
    page.stateWords();
    window.barrierPage = {
        page, engine, settings, jobOfFile, jobOfText, jobOfBytes, jobOfFragment, fragmentOf, jobBytes, textOfJob, csvOf, typed, metres, kilometres,
        reasonOf, remedyOf, Refused, Malformed, runsOfSchedule, interface: INTERFACE, words: WORDS, setLanguage: (name) => { language = name; },
    };
    document.documentElement.dataset.ready = 'yes';
}

begin().catch((error) => {
    byId('state-words').textContent = said('page.noEngine') + ': ' + error.message;
    document.documentElement.dataset.ready = 'failed';
    throw error;
});
