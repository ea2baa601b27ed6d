// From millimetres to the sheet; along and across have scales of their own.
class Frame {
    constructor(scene, hints) {
        const {job, plan} = scene;
        this.width = scene.width;
        this.narrow = scene.width < 620;
        this.left = this.narrow ? 46 : 104;
        this.right = scene.width - (this.narrow ? 10 : 24);
        this.depthRoom = this.narrow ? 92 : 118;
        [this.first, this.last] = scene.window;
        this.deepest = hints.deepest || Frame.deepest(job, plan);
        const road = 2 * Number(job.header.way || 0) / this.deepest * this.depthRoom;
        this.half = Math.max(this.narrow ? 24 : 30, Math.min(road / 2, 44));
    }

    // Far offsets well beyond the clear zone are cut; corners are not.
    static deepest(job, plan) {
        const zone = Math.min(Number(job.header.zone) || 10000, INTERFACE.header.find((field) => field.key === 'zone').high);
        let deepest = 1.25 * zone;
        job.hazards.forEach((hazard, i) => {
            deepest = Math.max(deepest, Math.min(Number(hazard.far), 1.6 * zone) || 0);
            const alone = plan.alone[i];
            if (alone && alone.corners) deepest = Math.max(deepest, alone.corners.upstream.offset);
        });
        return deepest;
    }

    get along() {
        return (this.right - this.left) / (this.last - this.first);
    }

    freeX(station) {
        return this.left + (station - this.first) * this.along;
    }

    x(station) {
        return Math.min(Math.max(this.freeX(station), this.left), this.right);
    }

    y(side, offset) {
        return (side === RIGHT ? 1 : -1) * (this.half + Math.min(offset, this.deepest) / this.deepest * this.depthRoom);
    }

    shows(start, end) {
        return end > this.first && start < this.last;
    }

    holds(station) {
        return station >= this.first && station <= this.last;
    }

    stationAt(x) {
        return this.first + (x - this.left) / this.along;
    }

    offsetAt(side, y) {
        return (Math.abs(y) - this.half) / this.depthRoom * this.deepest;
    }

    // A round distance between stations whose labels have room.
    step(widest) {
        for (let step = 1; ; step *= 10) {
            for (const factor of [1, 2, 5]) if (factor * step * this.along >= widest + 22) return factor * step;
        }
    }
}
