// The chosen hazard: what the engine says of it alone.

class HazardPanel {
    constructor(place) {
        this.place = place;
        this.made = '';
        this.sheet = {station: '', offset: ''};
        this.longest = '';
    }

    // The panel's parts are made once for each language and unit, so that typing in them is not disturbed.
    make() {
        const made = language + settings.unit + settings.stations;
        if (this.made === made) return;
        this.made = made;
        this.name = element('p', {id: 'hazard-name'});
        this.envelope = element('p', {id: 'hazard-envelope'});
        this.corners = element('table', {id: 'corners'}, element('thead'), element('tbody'));
        this.corners.tHead.append(element('tr', {}, ...['hazard.corner', 'hazard.station', 'hazard.offset'].map((key) => element('th', {scope: 'col', text: said(key)}))));
        this.rows = new TableBody(this.corners.tBodies[0]);
        this.noCorners = element('p', {class: 'quiet', id: 'no-corners'});
        this.sheetStation = this.field('sheet-station', this.sheet.station, (text) => { this.sheet.station = text; });
        this.sheetOffset = this.field('sheet-offset', this.sheet.offset, (text) => { this.sheet.offset = text; });
        this.longestField = this.field('longest', this.longest, (text) => { this.longest = text; });
        this.smallest = element('p', {id: 'smallest', role: 'status', 'aria-live': 'polite'});
        this.reach = element('p', {id: 'reach'});
        this.parts = [
            element('h3', {text: said('hazard.envelope')}), this.envelope,
            element('h3', {text: said('hazard.corners')}), element('div', {class: 'scroll'}, this.corners), this.noCorners,
            element('div', {class: 'fields'}, this.labelled('hazard.sheet', this.sheetStation), this.labelled('hazard.sheetOffset', this.sheetOffset)),
            element('h3', {text: said('hazard.smallest')}), this.labelled('hazard.longest', this.longestField), this.smallest,
            element('h3', {text: said('hazard.reach')}), this.reach,
        ];
        this.body = element('div', {}, ...this.parts);
        this.place.replaceChildren(this.name, this.body);
    }

    field(id, value, entered) {
        const input = element('input', {id, class: 'number', inputmode: 'decimal', autocomplete: 'off'});
        input.value = value;
        input.addEventListener('input', () => {
            entered(input.value);
            this.show(page.plan, page.chosen);
        });
        return input;
    }

    labelled(key, input) {
        return element('label', {class: 'field'}, element('span', {text: said(key)}), input);
    }

    show(plan, chosen) {
        this.make();
        const hazard = plan.job.hazards[chosen];
        this.body.hidden = !hazard || !plan.sides;
        if (!hazard || !plan.sides) {
            this.name.textContent = said(hazard ? 'plan.refused' : 'hazard.choose');
            for (const place of [this.envelope, this.noCorners, this.smallest, this.reach]) place.textContent = '';
            this.rows.show([]);
            return;
        }
        this.name.textContent = page.hazardLabel(chosen);
        const {envelope} = plan.alone[chosen];
        this.envelope.textContent = envelope ? said('road.range', ...envelope.map(stationOrBelow)) : said('hazard.noEnvelope');
        this.showCorners(plan, chosen);
        this.showSmallest(plan, chosen);
        this.showReach(plan, hazard);
    }

    // The engine's call on the whole job, counted from the sheet corner that is typed.
    showCorners(plan, chosen) {
        const [station, offset] = [[this.sheetStation, 'station'], [this.sheetOffset, 'length']].map(([input, unit]) => {
            const found = input.value.trim() === '' ? {value: 0} : typed(input.value, unit, settings.unit === 'm', 0);
            markField(input, found.wrong);
            return found;
        });
        let words = '';
        let corners = null;
        if (station.wrong || offset.wrong) words = said(station.wrong || offset.wrong);
        else {
            try {
                corners = page.planner.corners(plan.job, plan.bytes, chosen, station.value, offset.value);
                if (!corners) words = reasonOf(new Refused('barrier_corners', INTERFACE.numbers.BARRIER_NO_APPROACH, 0));
            } catch (refused) {
                if (!(refused instanceof Refused)) throw refused;
                words = reasonOf(refused) + '; ' + remedyOf(refused);
            }
        }
        const row = (key) => [said('hazard.' + (key === 'hazard' ? 'end' : key)), stationOrBelow(corners[key].station), lengthWords(corners[key].offset)];
        this.rows.show(corners ? ['upstream', 'flare', 'hazard'].map(row) : []);
        this.corners.hidden = !corners;
        this.noCorners.textContent = words;
    }

    showSmallest(plan, chosen) {
        const text = this.longestField.value;
        const found = text.trim() === '' ? null : typed(text, 'length', settings.unit === 'm', 0);
        markField(this.longestField, found && found.wrong);
        if (!found || found.wrong) {
            this.smallest.textContent = found ? said(found.wrong) : '';
            return;
        }
        try {
            const offset = page.planner.offset(plan, chosen, found.value);
            this.smallest.textContent = offset === null ? said('hazard.notFound') : said('hazard.found', lengthWords(offset));
        } catch (refused) {
            if (!(refused instanceof Refused)) throw refused;
            this.smallest.textContent = reasonOf(refused);
        }
    }

    showReach(plan, hazard) {
        if (!page.planner.hasReach()) {
            this.reach.textContent = said('hazard.reachMissing', page.engine.version());
            return;
        }
        const found = page.planner.reach(plan.job, hazard);
        const name = found && said(found.side === RIGHT ? 'page.rightSide' : 'page.leftSide');
        this.reach.textContent = found ? said('hazard.reachIs', name, stationWords(found.from), stationWords(found.to)) : said('hazard.reachNone');
    }
}

// Corners and envelopes may lie below station 0.
function stationOrBelow(mm) {
    return mm < 0 ? (settings.unit === 'm' ? metres(mm) : String(mm)) : stationWords(mm);
}
