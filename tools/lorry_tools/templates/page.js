(function(){var all=document.querySelectorAll('[data-route]');
function on(n){document.body.classList.toggle('one',n!==null);
all.forEach(function(e){e.classList.toggle('on',e.getAttribute('data-route')===n)})}
all.forEach(function(e){e.addEventListener('mouseenter',function(){on(e.getAttribute('data-route'))});
e.addEventListener('mouseleave',function(){on(null)})})})();
