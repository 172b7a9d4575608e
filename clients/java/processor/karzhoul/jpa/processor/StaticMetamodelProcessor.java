package karzhoul.jpa.processor;

import java.io.IOException;
import java.io.Writer;
import java.util.HashSet;
import java.util.Set;
import javax.annotation.processing.AbstractProcessor;
import javax.annotation.processing.RoundEnvironment;
import javax.annotation.processing.SupportedAnnotationTypes;
import javax.lang.model.SourceVersion;
import javax.lang.model.element.Element;
import javax.lang.model.element.TypeElement;
import javax.tools.Diagnostic;

/**
 * Makes the static metamodel class of each entity, mapped superclass and embeddable (Jakarta Persistence 3.1, chapter
 * 6.2.1.1): {@code Person_} of {@code Person}, and {@code Shop_Person_} of a {@code Person} within {@code Shop}. Each
 * is made of its class alone, so that a build may make just those that have changed.
 */
@SupportedAnnotationTypes({Annotations.ENTITY, Annotations.MAPPED_SUPERCLASS, Annotations.EMBEDDABLE})
public final class StaticMetamodelProcessor extends AbstractProcessor {
    private final Set<String> made = new HashSet<>();

    /** Made by the compiler. */
    public StaticMetamodelProcessor() {}

    @Override
    public SourceVersion getSupportedSourceVersion() {
        return SourceVersion.latestSupported();
    }

    @Override
    public boolean process(Set<? extends TypeElement> annotations, RoundEnvironment round) {
        Set<TypeElement> classes = new HashSet<>();
        for (TypeElement annotation : annotations) {
            for (Element element : round.getElementsAnnotatedWith(annotation)) {
                if (element instanceof TypeElement type && type.getKind().isClass()) {
                    classes.add(type);
                }
            }
        }
        Types types = new Types(processingEnv.getTypeUtils());
        for (TypeElement type : classes) {
            ManagedClass managed = new ManagedClass(type, processingEnv.getElementUtils(), types);
            if (managed.isVisible() && made.add(managed.qualifiedName())) {
                write(managed, new Members(type, types), classes);
            }
        }
        return false;
    }

    private void write(ManagedClass managed, Members members, Set<TypeElement> classes) {
        try (Writer file = processingEnv.getFiler().createSourceFile(managed.qualifiedName(), managed.type())
                .openWriter()) {
            file.write(new SourceText(managed, members.all()).written(classes));
        } catch (IOException e) {
            processingEnv.getMessager().printMessage(Diagnostic.Kind.ERROR,
                    managed.qualifiedName() + " can't be written: " + e.getMessage(), managed.type());
        }
    }
}
