// One workload on AngularJS. A job has a template, data, directives of its own and commands: expressions that are applied to the root scope one after another, and
// texts that are typed into controls, each a list of a control's id and the text.
// A round is begin, open, run and end; open compiles, links and digests the page, run applies the commands, end gives what stood at last.
function workload(angular, document, job) {
  let compile, root, host;
  return {
    begin() {
      const own = ($compileProvider) => job.directives.forEach((one) => $compileProvider.directive(one.name, () => ({...one})));
      own.$inject = ['$compileProvider'];
      const injector = angular.injector(['ng', plain, own]);
      compile = injector.get('$compile');
      root = injector.get('$rootScope');
      Object.assign(root, JSON.parse(JSON.stringify(job.data)));
      host = document.createElement('main');
      host.style.display = 'none';
      host.innerHTML = job.template;
      document.body.appendChild(host);
    },
    open() {
      compile(host.childNodes)(root);
      root.$digest();
    },
    run() {
      for (const command of job.commands) {
        if (typeof command === 'string') root.$apply(command);
        else typed(document.getElementById(command[0]), command[1]);
      }
    },
    end() {
      const shown = seen(host);
      root.$destroy();
      host.remove();
      return shown;
    },
  };
}

// A text is put in to a control, as when it is pasted.
function typed(control, text) {
  control.value = text;
  control.dispatchEvent(new control.ownerDocument.defaultView.Event('input'));
}

// As a page in use is told to: no debug classes, no directives in comments and classes.
function plain($compileProvider) {
  $compileProvider.debugInfoEnabled(false);
  $compileProvider.commentDirectivesEnabled(false);
  $compileProvider.cssClassDirectivesEnabled(false);
}
plain.$inject = ['$compileProvider'];

// The texts of the page's innermost elements.
function seen(host) {
  return Array.from(host.querySelectorAll('*')).filter((one) => !one.firstElementChild).map((one) => one.textContent).join('|');
}
