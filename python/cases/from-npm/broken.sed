/"node_modules\/frame": {/,/}/s/2.0.0/3.0.0/
/"node_modules\/numbers": {/,/}/s/2.3.0/3.0.0/
/"node_modules\/router": {/,/}/s/"version": "2.0.0"/"version": "1.0.0"/
/"node_modules\/runner": {/,/}/s/"version": "1.0.0"/"version": "1.0.0-rc"/
/"node_modules\/runner\/node_modules\/numbers": {/,/}/s/1.0.0/1.3.0/
/"node_modules\/strings": {/,/}/s/1.0.0/1.0/
