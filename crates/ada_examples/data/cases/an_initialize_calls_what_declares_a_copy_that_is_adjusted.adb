with Ada.Finalization; with Ada.Text_IO; with Ada.Unchecked_Deallocation;
procedure Main is
   type Cell is record Value : Integer := 6; end record;
   type Link is access Cell;
   type Mark is record Value : Integer := 0; end record;
   type Marks is access Mark;
   type Count is new Ada.Finalization.Controlled with record Value : Integer := 2; end record;
   overriding procedure Adjust (Object : in out Count);
   overriding procedure Finalize (Object : in out Count);
   type Counts is access Count;
   procedure Free is new Ada.Unchecked_Deallocation (Cell, Link);
   procedure Free_Mark is new Ada.Unchecked_Deallocation (Mark, Marks);
   procedure Free_Count is new Ada.Unchecked_Deallocation (Count, Counts);
   type Holder is new Ada.Finalization.Limited_Controlled with record Held : Link; Own : Count; end record;
   overriding procedure Initialize (Object : in out Holder);
   overriding procedure Finalize (Object : in out Holder);
   overriding procedure Adjust (Object : in out Count) is
      Kept : Marks;
   begin
      begin
         Kept := new Mark;
         Kept.Value := Object.Value + 1;
         Object.Value := Kept.Value;
         Free_Mark (Kept);
      exception
         when Storage_Error | Constraint_Error => Kept := null;
      end;
      Ada.Text_IO.Put_Line ("adjusted");
   end Adjust;
   overriding procedure Finalize (Object : in out Count) is
   begin
      Ada.Text_IO.Put_Line (Integer'Image (Object.Value));
   end Finalize;
   procedure Fill (Place : Link; From : Counts) is
      Twin : Count := From.all;
      Other : Count := Twin;
   begin
      Place.Value := Twin.Value + Other.Value;
   end Fill;
   overriding procedure Initialize (Object : in out Holder) is
      From : Counts;
   begin
      Object.Held := new Cell;
      Fill (Object.Held, From);
   exception
      when Constraint_Error =>
         From := new Count;
         Fill (Object.Held, From);
         Free_Count (From);
   end Initialize;
   overriding procedure Finalize (Object : in out Holder) is
   begin
      Free (Object.Held);
   end Finalize;
begin
   declare
      H : Holder;
   begin
      Ada.Text_IO.Put_Line (Integer'Image (H.Held.Value));
   end;
end Main;
